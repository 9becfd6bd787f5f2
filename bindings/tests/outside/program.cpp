// The same in C++.
#include <iostream>
#include <vx.hpp>

int main()
{
    vx::Plan plan("x > 5", "{x=i32?}");
    const std::vector<int32_t> numbers{7, 1, 9};
    const std::vector<uint8_t> validity{5};
    std::cout << vx::check("x >= 1 and x <= 5", "{x=i32?}") << '\n';
    for (int selected : plan.select(3, {{nullptr, 0}, vx::lend(validity), vx::lend(numbers)}))
        std::cout << selected << '\n';
}
