// vx.hpp: vx.h and vx_arrow.h for C++17. Texts go in as std::string_view and come out as std::string, a call
// that stops throws, and a plan is freed as it goes. What a call means is said in these headers.
//
//     vx::Plan plan("x > 5", "{x=i32?}");
//     std::vector<uint8_t> rows = plan.select(schema, array);      // of any Arrow library
//
// A copy of a plan shares it, and may be used on another thread.
#ifndef VX_HPP
#define VX_HPP

#include "vx.h"
#include "vx_arrow.h"

#include <cstring>
#include <new>
#include <stdexcept>
#include <string>
#include <string_view>
#include <tuple>
#include <utility>
#include <vector>

namespace vx {

// What stops a call: its status (VX_UNREAD and above), the message, and the place in what it was given. Where
// memory ran out it is a std::bad_alloc instead.
class Error : public std::runtime_error {
  public:
    Error(vx_status status, const std::string &message, const vx_place &place)
        : std::runtime_error(message), status_(status), place_(place) {}

    vx_status status() const noexcept { return status_; }
    const vx_place &place() const noexcept { return place_; }

  private:
    vx_status status_;
    vx_place place_;
};

namespace detail {

// The page that the call answers, in a buffer that has so much room at first.
template <class Page, class Call> Page answered(Call call, std::size_t room = 1024) {
    Page page(room, 0);
    vx_answer answer{};
    vx_status status;
    while ((status = call(reinterpret_cast<char *>(page.data()), page.size(), &answer)) == VX_TOO_SMALL)
        page.resize(answer.needed);
    if (status == VX_OUT_OF_MEMORY)
        throw std::bad_alloc();
    page.resize(answer.needed);
    if (status != VX_ANSWERED)
        throw Error(status, std::string(page.begin(), page.end()), answer.place);
    return page;
}

template <class Function, class... Texts> std::string page_of(Function function, Texts... texts) {
    return answered<std::string>([&](char *buffer, std::size_t room, vx_answer *answer) {
        return std::apply([&](auto... parts) { return function(parts..., buffer, room, answer); },
                          std::tuple_cat(std::make_tuple(texts.data(), texts.size())...));
    });
}

// The page without the end of its only line.
inline std::string line(const std::string &page) { return page.substr(0, page.size() - 1); }

// The text of JSON that begins there, up to its last quote.
inline std::string text_at(const std::string &line, std::size_t &at) {
    std::string text;
    while (line[++at] != '"') {
        const char sign = line[at] == '\\' ? line[++at] : 0;
        const char *plain = sign ? std::strchr("n\nt\tr\rb\bf\f", sign) : nullptr;
        text += plain ? plain[1] : line[at];
        if (sign == 'u') { // (a control character)
            text.back() = static_cast<char>(std::stoi(line.substr(at + 1, 4), nullptr, 16));
            at += 4;
        }
    }
    return text;
}

// The lists of names that a line of JSON has, as [["x"],["a","b"]].
inline std::vector<std::vector<std::string>> names_of(const std::string &line) {
    std::vector<std::vector<std::string>> lists;
    for (std::size_t at = 1; at < line.size(); at++)
        if (line[at] == '[')
            lists.emplace_back();
        else if (line[at] == '"')
            lists.back().push_back(text_at(line, at));
    return lists;
}

} // namespace detail

inline std::string version() { return detail::line(detail::page_of(vx_version)); }
inline std::string fmt(std::string_view expression) { return detail::line(detail::page_of(vx_fmt, expression)); }
inline std::string check(std::string_view expression, std::string_view schema) {
    return detail::line(detail::page_of(vx_check, expression, schema));
}
inline std::string explain(std::string_view expression, std::string_view schema) {
    return detail::page_of(vx_explain, expression, schema);
}
inline std::string plan_json(std::string_view expression, std::string_view schema) {
    return detail::page_of(vx_plan_json, expression, schema);
}
inline std::string eval_json(std::string_view expression, std::string_view schema, std::string_view records) {
    return detail::page_of(vx_eval_json, expression, schema, records);
}

enum class Verdict { no_row, every_row, to_be_read };

// For each line of statistics whether the expression is true in no row of the chunk, in every row, or to be
// read.
inline std::vector<Verdict> prune(std::string_view expression, std::string_view schema, std::string_view statistics) {
    const std::string page = detail::page_of(vx_prune, expression, schema, statistics);
    std::vector<Verdict> verdicts;
    for (std::size_t at = 0; (at = page.find("\"verdict\":\"", at)) != std::string::npos;) {
        const char first = page[at += 11]; // (of "no row", "every row" and "to be read")
        verdicts.push_back(first == 'n' ? Verdict::no_row : first == 'e' ? Verdict::every_row : Verdict::to_be_read);
    }
    return verdicts;
}

// The type of a column, a schema for other calls.
inline std::string schema_of(const ArrowSchema &type) {
    return detail::answered<std::string>([&](char *buffer, std::size_t room, vx_answer *answer) {
        return vx_schema_of_arrow(&type, buffer, room, answer);
    });
}

// Numbers that are lent to a call, for as long as the vector is there and isn't changed.
template <class Number> vx_buffer lend(const std::vector<Number> &numbers) {
    return {numbers.data(), numbers.size() * sizeof(Number)};
}

// A column that a plan answers, for any Arrow library. What isn't moved out of it is released as it goes.
struct Column {
    ArrowSchema type{};
    ArrowArray array{};

    Column() = default;
    Column(Column &&other) noexcept : type(std::exchange(other.type, {})), array(std::exchange(other.array, {})) {}
    Column &operator=(Column &&other) noexcept {
        std::swap(type, other.type);
        std::swap(array, other.array);
        return *this;
    }
    ~Column() {
        if (type.release)
            type.release(&type);
        if (array.release)
            array.release(&array);
    }
};

// A plan of scans by the expression over batches of the schema's type, or of the type of Arrow columns. A copy
// shares it and takes no more than a count, so that each thread can have its own: on one object calls are made
// one at a time, and copying it is a call, too. What it is moved to has it then, and its calls throw VX_NO_PLAN.
class Plan {
  public:
    Plan(std::string_view expression, std::string_view schema) : schema_(schema) {
        detail::answered<std::string>([&](char *buffer, std::size_t room, vx_answer *answer) {
            return vx_plan_new(expression.data(), expression.size(), schema_.data(), schema_.size(), &plan_, buffer,
                               room, answer);
        });
    }

    Plan(std::string_view expression, const ArrowSchema &type) : Plan(expression, schema_of(type)) {}
    Plan(Plan &&other) noexcept { swap(other); }
    Plan &operator=(Plan other) noexcept { return swap(other), *this; }
    Plan(const Plan &other) : schema_(other.schema_) {
        if (vx_plan_share(&other.plan_, &plan_) == VX_OUT_OF_MEMORY)
            throw std::bad_alloc();
    }
    ~Plan() { vx_plan_free(&plan_); }

    // The type of its batches, as a schema.
    std::string scope() {
        return detail::line(detail::answered<std::string>([&](char *buffer, std::size_t room, vx_answer *answer) {
            return vx_plan_scope(&plan_, buffer, room, answer);
        }));
    }

    // The type of its expression.
    std::string type() {
        return detail::line(detail::answered<std::string>([&](char *buffer, std::size_t room, vx_answer *answer) {
            return vx_plan_type(&plan_, buffer, room, answer);
        }));
    }

    // The paths of the fields that are read, each from the row on: {{"x"}, {"a", "b"}}.
    std::vector<std::vector<std::string>> paths() {
        return detail::names_of(detail::answered<std::string>([&](char *buffer, std::size_t room, vx_answer *answer) {
            return vx_plan_paths(&plan_, buffer, room, answer);
        }));
    }

    // At which rows the expression is true: 1 where it is, and 0 where it is false or null.
    std::vector<uint8_t> select(std::size_t rows, const std::vector<vx_buffer> &buffers) {
        return on_batch<std::vector<uint8_t>>(vx_plan_select, rows, buffers);
    }
    std::vector<uint8_t> select(const ArrowSchema &type, const ArrowArray &array) {
        return on_array<std::vector<uint8_t>>(vx_plan_select_arrow, type, array);
    }
    // The value at each row, as a line of JSON.
    std::string scan_json(std::size_t rows, const std::vector<vx_buffer> &buffers) {
        return on_batch<std::string>(vx_plan_scan, rows, buffers);
    }
    std::string scan_json(const ArrowSchema &type, const ArrowArray &array) {
        return on_array<std::string>(vx_plan_scan_arrow_json, type, array);
    }

    // The value at each row, as a column.
    Column scan(const ArrowSchema &type, const ArrowArray &array) { return column_of(vx_plan_scan_arrow, type, array); }
    // The rows at which the expression is true, as a column of the plan's type.
    Column filter(const ArrowSchema &type, const ArrowArray &array) {
        return column_of(vx_plan_filter_arrow, type, array);
    }

  private:
    template <class Call> Column column_of(Call call, const ArrowSchema &type, const ArrowArray &array) {
        Column column;
        detail::answered<std::string>([&](char *buffer, std::size_t room, vx_answer *answer) {
            return call(&plan_, schema_.data(), schema_.size(), &type, &array, &column.array, &column.type, buffer,
                        room, answer);
        });
        return column;
    }

    void swap(Plan &other) noexcept {
        std::swap(plan_, other.plan_);
        schema_.swap(other.schema_);
    }

    template <class Page, class Call>
    Page on_batch(Call call, std::size_t rows, const std::vector<vx_buffer> &buffers) {
        return detail::answered<Page>([&](char *buffer, std::size_t room, vx_answer *answer) {
            return call(&plan_, rows, buffers.data(), buffers.size(), buffer, room, answer);
        }, rows + 512);
    }

    template <class Page, class Call> Page on_array(Call call, const ArrowSchema &type, const ArrowArray &array) {
        return detail::answered<Page>([&](char *buffer, std::size_t room, vx_answer *answer) {
            return call(&plan_, schema_.data(), schema_.size(), &type, &array, buffer, room, answer);
        }, (array.length > 0 ? static_cast<std::size_t>(array.length) : 0) + 512);
    }

    mutable vx_plan plan_ = VX_PLAN_INIT; // (a call takes the plan out of it, and puts it back)
    std::string schema_;
};

} // namespace vx

#endif
