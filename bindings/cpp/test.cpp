// Tests of include/vx.hpp. The last line is "C++: N checks, M failed".
#include "vx.hpp"

#include <atomic>
#include <cmath>
#include <cstdio>
#include <cstring>
#include <memory>
#include <thread>
#include <type_traits>

static int checks = 0, failures = 0;

static void expect(bool holds, const char *what, int line) {
    checks++;
    if (!holds) {
        failures++;
        std::fprintf(stderr, "test.cpp:%d: %s\n", line, what);
    }
}

#define EXPECT(...) expect((__VA_ARGS__), #__VA_ARGS__, __LINE__)

// Whether the call throws with this status, and a place that begins and ends there.
template <class Call>
static bool stops(Call call, vx_status status, std::size_t text, std::size_t start, std::size_t end) {
    try {
        call();
    } catch (const vx::Error &error) {
        const vx_place &place = error.place();
        return error.status() == status && std::strncmp(error.what(), "error: ", 7) == 0 && place.text == text &&
               place.start == start && place.end == end;
    }
    return false;
}

static void test_texts() {
    EXPECT(vx::version() == VX_VERSION);
    EXPECT(vx::check("x >= 1", "{x=i32?}") == "bool?");
    EXPECT(vx::check(std::string_view("x >= 1 and garbage", 6), "{x=i32?}") == "bool?");
    EXPECT(vx::fmt("x between 1 and 3") == "(1i32 <= $.x <= 3i32)");
    EXPECT(vx::explain("x >= 1", "{x=i32}").find("type: bool\n") != std::string::npos);
    EXPECT(vx::plan_json("x >= 1", "{x=i32}").find("\"paths\":[[\"x\"]]") != std::string::npos);
    EXPECT(vx::eval_json("x + 1", "{x=i32}", "{\"x\": 1}\n{\"x\": 5}\n") == "2\n6\n");
    const std::string long_text = "x = " + std::string(3000, '(') + "1";
    EXPECT(stops([&] { vx::fmt(long_text); }, VX_UNREAD, VX_EXPRESSION, 204, 204));
    EXPECT(stops([] { vx::check("x >= s", "{x=i32, s=utf8}"); }, VX_REFUSED, VX_EXPRESSION, 0, 6));
    EXPECT(stops([] { vx::check("x", "{x=i33}"); }, VX_UNREAD, VX_SCHEMA, 3, 3));
    EXPECT(stops([] { vx::eval_json("x + 1", "{x=i32}", "{\"x\": 2147483647}"); }, VX_FAULTED, VX_EXPRESSION, 0, 5));
}

static void test_verdicts() {
    const char *statistics = "{\"rows\": 3, \"fields\": {\"x\": {\"greatest\": 5}}}\n{\"rows\": 4}\n"
                             "{\"rows\": 2, \"fields\": {\"x\": {\"nulls\": 0, \"least\": 6}}}\n";
    using vx::Verdict;
    EXPECT(vx::prune("x > 5", "{x=i32?}", statistics) ==
           std::vector<Verdict>{Verdict::no_row, Verdict::to_be_read, Verdict::every_row});
    EXPECT(vx::prune("x > 5", "{x=i32?}", "").empty());
}

static void test_paths() {
    using Paths = std::vector<std::vector<std::string>>;
    EXPECT(vx::Plan("a.x >= 1 and b < 5", "{a={x=i32, y=i32}?, b=i32, c=utf8}").paths() == Paths{{"a", "x"}, {"b"}});
    EXPECT(vx::Plan("1 < 2", "{x=i32}").paths().empty());
    EXPECT(vx::Plan("is_null($)", "utf8?").paths() == Paths{{}});
    const std::string name = "a\"\\n\\u0041[\n\t\b\f\r\1\303\244";
    EXPECT(vx::Plan("`" + name + "`", "{`" + name + "`=i8}").paths() == Paths{{name}});
}

static void test_plans() {
    static_assert(std::is_copy_constructible_v<vx::Plan> && std::is_copy_assignable_v<vx::Plan>);
    static_assert(std::is_nothrow_move_constructible_v<vx::Plan> && std::is_nothrow_move_assignable_v<vx::Plan>);
    const std::vector<int32_t> numbers{7, 1, 9};
    const std::vector<uint8_t> is_there{5}, wanted{1, 0, 1};
    const std::vector<vx_buffer> batch{{nullptr, 0}, vx::lend(is_there), vx::lend(numbers)};
    vx::Plan plan("x > 5", "{x=i32?}");
    EXPECT(plan.paths() == std::vector<std::vector<std::string>>{{"x"}});
    EXPECT(plan.select(3, batch) == wanted);
    EXPECT(plan.scan_json(3, batch) == "true\nnull\ntrue\n");
    vx::Plan moved(std::move(plan));
    EXPECT(moved.select(3, batch) == wanted);
    EXPECT(stops([&] { plan.select(3, batch); }, VX_NO_PLAN, VX_NOWHERE, 0, 0));
    moved = vx::Plan("x + 1 > 8", "{x=i32?}");
    EXPECT(moved.select(3, batch) == std::vector<uint8_t>{0, 0, 1});
    std::vector<vx::Plan> plans;
    for (int i = 0; i < 5; i++)
        plans.emplace_back("x > " + std::to_string(i), "{x=i32?}");
    EXPECT(plans[4].select(3, batch) == wanted);
    EXPECT(stops([] { vx::Plan("y", "{x=i32}"); }, VX_REFUSED, VX_EXPRESSION, 0, 1));
    EXPECT(stops([&] { moved.select(9, batch); }, VX_BAD_DATA, VX_RECORDS, 0, 0));
}

// A copy is a plan of its own, which is there after the first, and on another thread.
static void test_shared_plans() {
    const std::vector<int32_t> numbers{7, 1, 9};
    const std::vector<uint8_t> is_there{5}, wanted{1, 0, 1};
    const std::vector<vx_buffer> batch{{nullptr, 0}, vx::lend(is_there), vx::lend(numbers)};
    auto first = std::make_unique<vx::Plan>("x > 5", "{x=i32?}");
    std::vector<vx::Plan> copies(8, *first);
    EXPECT(first->select(3, batch) == wanted);
    first.reset();
    std::vector<std::thread> threads;
    std::atomic<int> right{0};
    for (vx::Plan &copy : copies)
        threads.emplace_back([&] {
            for (int turn = 0; turn < 100; turn++)
                right += copy.select(3, batch) == wanted;
        });
    for (std::thread &thread : threads)
        thread.join();
    EXPECT(right == 800);
    vx::Plan other("x > 8", "{x=i32?}");
    other = copies[0];
    EXPECT(other.select(3, batch) == wanted && copies[0].select(3, batch) == wanted);
    vx::Plan moved(std::move(other)), none(other);
    EXPECT(stops([&] { none.select(3, batch); }, VX_NO_PLAN, VX_NOWHERE, 0, 0));
    EXPECT(moved.scope() == "{x=i32?}");
}

static void test_arrow() {
    const int32_t numbers[] = {0, 7, 1, 9};
    const uint8_t is_there = 11;
    const void *buffers[] = {&is_there, numbers}, *none[] = {nullptr};
    auto kept = [](auto *) {};
    ArrowSchema x{"i", "x", nullptr, ARROW_FLAG_NULLABLE, 0, nullptr, nullptr, kept, nullptr}, *fields[] = {&x};
    ArrowSchema type{"+s", "", nullptr, 0, 1, fields, nullptr, kept, nullptr};
    ArrowArray column{4, -1, 0, 2, 0, buffers, nullptr, nullptr, kept, nullptr}, *columns[] = {&column};
    ArrowArray array{3, 0, 1, 1, 1, none, columns, nullptr, kept, nullptr};
    EXPECT(vx::schema_of(type) == "{x=i32?}");
    vx::Plan plan("x > 5", type);
    EXPECT(plan.select(type, array) == std::vector<uint8_t>{1, 0, 1});
    EXPECT(plan.scan_json(type, array) == "true\nnull\ntrue\n" && plan.type() == "bool?");
    vx::Column rows = plan.filter(type, array), moved = std::move(rows);
    EXPECT(!rows.array.release && !rows.type.release && moved.array.length == 2);
    EXPECT(static_cast<const int32_t *>(moved.array.children[0]->buffers[1])[1] == 9);
    rows = plan.scan(moved.type, moved.array);
    EXPECT(vx::schema_of(rows.type) == "bool?" && rows.array.length == 2 && rows.array.null_count == 0);
    EXPECT(static_cast<const uint8_t *>(rows.array.buffers[1])[0] == 3);
    rows = std::move(moved);
    EXPECT(plan.scan_json(rows.type, rows.array) == "true\ntrue\n");
    x.format = "l";
    EXPECT(stops([&] { plan.select(type, array); }, VX_BAD_DATA, VX_RECORDS, 0, 0));
    EXPECT(stops([&] { plan.scan(type, array); }, VX_BAD_DATA, VX_RECORDS, 0, 0));
    x.format = "e";
    EXPECT(stops([&] { plan.select(type, array); }, VX_BAD_DATA, VX_SCHEMA, 0, 0));
    EXPECT(stops([&] { vx::schema_of(type); }, VX_BAD_DATA, VX_SCHEMA, 0, 0));
}

// Floating-point numbers are in IEEE 754's total order: -0 before 0, and NaN last.
static void test_floats() {
    const double numbers[] = {0.0, 9.99, -0.0, std::nan(""), 1.0};
    const std::vector<double> rows(numbers + 1, numbers + 5);
    const std::vector<uint8_t> is_there{7}, wanted{1, 1, 1, 0};
    vx::Plan plan("x > 9.0 or x < 0.0", "{x=f64?}"), column("x", "{x=f64?}");
    const std::vector<vx_buffer> batch{{nullptr, 0}, vx::lend(is_there), vx::lend(rows)};
    EXPECT(plan.select(4, batch) == wanted);
    EXPECT(column.scan_json(4, batch) == "9.99\n-0.0\n\"nan\"\nnull\n");
    const uint8_t from_1 = 14;
    const void *buffers[] = {&from_1, numbers}, *none[] = {nullptr};
    auto kept = [](auto *) {};
    ArrowSchema x{"g", "x", nullptr, ARROW_FLAG_NULLABLE, 0, nullptr, nullptr, kept, nullptr}, *fields[] = {&x};
    ArrowSchema type{"+s", "", nullptr, 0, 1, fields, nullptr, kept, nullptr};
    ArrowArray inner{4, -1, 1, 2, 0, buffers, nullptr, nullptr, kept, nullptr}, *columns[] = {&inner};
    ArrowArray array{4, 0, 0, 1, 1, none, columns, nullptr, kept, nullptr};
    EXPECT(vx::schema_of(type) == "{x=f64?}" && plan.select(type, array) == wanted);
    const vx::Column found = column.scan(type, array);
    EXPECT(vx::schema_of(found.type) == "f64?" && found.array.length == 4 && found.array.null_count == 1);
    EXPECT(static_cast<const double *>(found.array.buffers[1])[0] == 9.99);
    EXPECT(std::isnan(static_cast<const double *>(found.array.buffers[1])[2]));
}

int main() {
    test_texts();
    test_verdicts();
    test_paths();
    test_plans();
    test_shared_plans();
    test_arrow();
    test_floats();
    std::printf("C++: %d checks, %d failed\n", checks, failures);
    return failures > 0;
}
