// Scans a table in chunks for the rows that a filter selects, as scan.py does, and prints the same.
//
//     make_chunks.py FOLDER
//     g++ -std=c++17 -O2 -Iinclude -pthread examples/scan.cpp bindings/out/libvx.a -o scan && ./scan FOLDER
//
// Statistics say which chunks need not be read. Of the others only the columns that the filter reads are, on
// four threads.
#include "vx.hpp"

#include <atomic>
#include <cstdio>
#include <cstring>
#include <fstream>
#include <future>
#include <iterator>
#include <numeric>

static const char FILTER[] = "id >= 700000 or id >= 120000 and price between 9.99 and 499.5 and stock > 5";
static const char SCHEMA[] = "{id=i64, price=f64, stock=i32?, note=utf8?}";
static const std::size_t THREADS = 4;

// A column of the table: its name, its type in a schema, the bytes of a number, and whether it has nulls.
struct Field {
    const char *name;
    const char *type;
    std::size_t size;
    bool is_nullable;
};

static const Field FIELDS[] = {{"id", "i64", 8, false}, {"price", "f64", 8, false}, {"stock", "i32?", 4, true}};

static std::vector<char> read(const std::string &path) {
    std::ifstream file(path, std::ios::binary);
    if (!file)
        throw std::runtime_error(path + " can't be read");
    return {std::istreambuf_iterator<char>(file), {}};
}

// The bytes behind the head of a file of numpy's: the length of the head stands at byte 8.
static std::vector<char> read_numbers(const std::string &folder, std::size_t chunk, const std::string &name) {
    std::vector<char> file = read(folder + "/" + std::to_string(chunk) + "." + name + ".npy");
    uint16_t head = 0;
    std::memcpy(&head, file.data() + 8, sizeof head);
    file.erase(file.begin(), file.begin() + 10 + head);
    return file;
}

// The columns that the filter reads, by the paths of its plan.
static std::vector<Field> fields_read() {
    std::vector<Field> fields;
    for (const auto &path : vx::Plan(FILTER, SCHEMA).paths())
        for (const Field &field : FIELDS)
            if (path[0] == field.name)
                fields.push_back(field);
    return fields;
}

static std::string schema_of(const std::vector<Field> &fields) {
    std::string schema;
    for (const Field &field : fields)
        schema += (schema.empty() ? "{" : ", ") + std::string(field.name) + "=" + field.type;
    return schema + "}";
}

// At which rows of the chunk the filter is true.
static std::vector<uint8_t> select(vx::Plan &plan, const std::vector<Field> &fields, const std::string &folder,
                                   std::size_t chunk) {
    std::vector<std::vector<char>> columns;
    std::size_t rows = 0;
    for (const Field &field : fields) {
        columns.push_back(field.is_nullable ? read_numbers(folder, chunk, field.name + std::string(".valid"))
                                            : std::vector<char>());
        columns.push_back(read_numbers(folder, chunk, field.name));
        rows = columns.back().size() / field.size;
    }
    std::vector<vx_buffer> batch{{nullptr, 0}}; // (no row is null as a whole)
    for (const std::vector<char> &column : columns)
        batch.push_back(vx::lend(column));
    return plan.select(rows, batch);
}

static void scan(const std::string &folder) {
    const std::vector<char> statistics = read(folder + "/statistics.jsonl");
    const auto verdicts = vx::prune(FILTER, SCHEMA, {statistics.data(), statistics.size()});
    const std::vector<Field> fields = fields_read();
    std::vector<std::vector<uint8_t>> selected(verdicts.size());
    std::atomic<std::size_t> next{0};
    auto work = [&](vx::Plan plan) { // (a copy, which shares the plan)
        for (std::size_t chunk; (chunk = next++) < verdicts.size();)
            if (verdicts[chunk] == vx::Verdict::to_be_read)
                selected[chunk] = select(plan, fields, folder, chunk);
    };
    const vx::Plan plan(FILTER, schema_of(fields));
    std::vector<std::future<void>> threads;
    for (std::size_t i = 0; i < THREADS; i++)
        threads.push_back(std::async(std::launch::async, work, plan));
    for (std::future<void> &thread : threads)
        thread.get(); // (which throws what stopped it)
    for (std::size_t chunk = 0; chunk < verdicts.size(); chunk++) {
        const auto &rows = selected[chunk];
        if (verdicts[chunk] == vx::Verdict::to_be_read)
            std::printf("%zu: %zu rows of %zu\n", chunk, std::accumulate(rows.begin(), rows.end(), std::size_t{0}),
                        rows.size());
        else
            std::printf("%zu: %s\n", chunk, verdicts[chunk] == vx::Verdict::no_row ? "no row" : "every row");
    }
}

int main(int count, char **arguments) {
    try {
        scan(count > 1 ? arguments[1] : ".");
    } catch (const std::exception &error) {
        std::fprintf(stderr, "%s\n", error.what());
        return 1;
    }
}
