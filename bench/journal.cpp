// Reads a journal's text from standard input into a list of events, and writes it again: plain structs, a pass over the bytes, and one
// buffer for the output. Names of kinds are kept as text; numbers have 64 bits.
#include <cstdint>
#include <cstdio>
#include <cstdlib>
#include <cstring>
#include <string>
#include <string_view>
#include <vector>

struct Ref {
    bool null;
    uint32_t owner;
    uint64_t number;
};

struct Place {
    char kind;
    uint8_t first, second;
};

struct NewTask {
    std::string name;
    uint32_t height;
    std::vector<Place> inputs;
};

struct Event {
    char verb;
    uint32_t actor;
    uint64_t task;
    Ref one, other;
    std::string name;
    uint32_t height;
    std::vector<Ref> refs;
    std::vector<std::vector<Place>> chunks;
    std::vector<NewTask> tasks;
    Place result;
};

static const char *at, *end;

[[noreturn]] static void wrong() {
    std::exit(1);
}

static bool more() {
    return at < end && *at == ' ' && (++at, true);
}

static std::string_view word() {
    const char *from = at;
    while (at < end && *at != ' ' && *at != '\n') at++;
    if (at == from) wrong();
    return {from, size_t(at - from)};
}

static std::string_view next() {
    if (!more()) wrong();
    return word();
}

static uint64_t number(std::string_view digits) {
    if (digits.empty() || (digits.size() > 1 && digits[0] == '0')) wrong();
    uint64_t value = 0;
    for (char digit : digits) {
        if (digit < '0' || digit > '9') wrong();
        value = value * 10 + uint64_t(digit - '0');
    }
    return value;
}

static Ref ref(std::string_view text) {
    if (text == "-") return {true, 0, 0};
    size_t colon = text.find(':');
    if (colon == text.npos) wrong();
    uint64_t owner = number(text.substr(0, colon)), name = number(text.substr(colon + 1));
    if (owner > 63 || name == 0) wrong();
    return {false, uint32_t(owner), name};
}

static Place place(std::string_view text) {
    if (text == "-") return {'-', 0, 0};
    std::string_view rest = text.substr(1);
    if (text[0] == 'c') {
        size_t point = rest.find('.');
        if (point == rest.npos) wrong();
        return {'c', uint8_t(number(rest.substr(0, point))), uint8_t(number(rest.substr(point + 1)))};
    }
    return {text[0], uint8_t(number(rest)), 0};
}

static void line() {
    if (at == end || *at != '\n') wrong();
    at++;
}

static std::vector<Place> places() {
    std::vector<Place> found;
    while (more()) found.push_back(place(word()));
    return found;
}

static Event event(std::string_view verb) {
    Event made{};
    made.actor = uint32_t(number(next()));
    if (made.actor > 63) wrong();
    if (verb == "register") {
        made.verb = 'r';
        made.one = ref(next());
        while (more()) made.refs.push_back(ref(word()));
    } else if (verb == "copy") {
        made.verb = 'c';
        made.one = ref(next());
        made.other = ref(next());
    } else if (verb == "delete") {
        made.verb = 'd';
        made.one = ref(next());
    } else if (verb == "ask") {
        made.verb = 'a';
        made.task = number(next());
        made.name = next();
        made.height = uint32_t(number(next()));
        while (more()) made.refs.push_back(ref(word()));
    } else if (verb == "collect") {
        made.verb = 'l';
        made.task = number(next());
        made.one = ref(next());
    } else if (verb == "start") {
        made.verb = 's';
        made.task = number(next());
    } else if (verb == "finish") {
        made.verb = 'f';
        made.task = number(next());
        uint64_t chunks = number(next()), tasks = number(next());
        made.result = place(next());
        for (uint64_t k = 0; k < chunks; k++) {
            line();
            if (word() != "chunk") wrong();
            made.chunks.push_back(places());
        }
        for (uint64_t k = 0; k < tasks; k++) {
            line();
            if (word() != "task") wrong();
            NewTask task{std::string(next()), uint32_t(number(next())), {}};
            task.inputs = places();
            made.tasks.push_back(std::move(task));
        }
    } else {
        wrong();
    }
    line();
    return made;
}

static void write(const Ref &one) {
    if (one.null) std::fputs(" -", stdout);
    else std::printf(" %u:%lu", one.owner, one.number);
}

static void write(const Place &one) {
    if (one.kind == '-') std::fputs(" -", stdout);
    else if (one.kind == 'c') std::printf(" c%u.%u", one.first, one.second);
    else std::printf(" %c%u", one.kind, one.first);
}

static void write(const Event &one) {
    switch (one.verb) {
    case 'r': std::printf("register %u", one.actor); write(one.one); for (auto &r : one.refs) write(r); break;
    case 'c': std::printf("copy %u", one.actor); write(one.one); write(one.other); break;
    case 'd': std::printf("delete %u", one.actor); write(one.one); break;
    case 'a': std::printf("ask %u %lu %s %u", one.actor, one.task, one.name.c_str(), one.height); for (auto &r : one.refs) write(r); break;
    case 'l': std::printf("collect %u %lu", one.actor, one.task); write(one.one); break;
    case 's': std::printf("start %u %lu", one.actor, one.task); break;
    case 'f':
        std::printf("finish %u %lu %zu %zu", one.actor, one.task, one.chunks.size(), one.tasks.size());
        write(one.result);
        for (auto &chunk : one.chunks) { std::fputs("\nchunk", stdout); for (auto &p : chunk) write(p); }
        for (auto &task : one.tasks) { std::printf("\ntask %s %u", task.name.c_str(), task.height); for (auto &p : task.inputs) write(p); }
        break;
    }
    std::fputc('\n', stdout);
}

int main() {
    std::string text;
    static char buffer[1 << 16];
    for (size_t n; (n = std::fread(buffer, 1, sizeof buffer, stdin)) > 0;) text.append(buffer, n);
    at = text.data();
    end = at + text.size();
    static const char first[] = "cht journal 1\n";
    if (text.compare(0, sizeof first - 1, first) != 0) wrong();
    at += sizeof first - 1;
    std::vector<Event> events;
    for (;;) {
        std::string_view verb = word();
        if (verb == "end") break;
        events.push_back(event(verb));
    }
    if (number(next()) != events.size()) wrong();
    line();
    if (at != end) wrong();
    std::fputs(first, stdout);
    for (const Event &one : events) write(one);
    std::printf("end %zu\n", events.size());
    return 0;
}
