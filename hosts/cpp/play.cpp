// Plays an input of navd over navd.hpp: a field text and a script, from standard input to standard output.
//
//     play < input            plays the script, and writes what `navd play` writes
//     play view < input       the same, but the questions are asked of a view, which looks at each mesh that is published
//     play more < input       the same of a view, and what no script asks for: a walker on each path; at the end the counts, what there is
//                             to draw, and the numbers of a renewed history
//
// A worker of the script is a Job here, whose tile is built as it is claimed.
#define NAVD_HEAP
#include "navd.hpp"

#include <iostream>
#include <iterator>
#include <sstream>
#include <stdexcept>
#include <string>

using navd::Status;

static_assert(std::is_nothrow_move_constructible_v<navd::Level> && std::is_nothrow_move_assignable_v<navd::Job>);
static_assert(!std::is_copy_constructible_v<navd::Level> && !std::is_copy_assignable_v<navd::View>);

namespace {

std::istream &operator>>(std::istream &in, navd_point &point) { return in >> point.x >> point.z; }

std::istream &operator>>(std::istream &in, navd_way &way) { return in >> way.from >> way.from_y >> way.to >> way.to_y; }

std::istream &operator>>(std::istream &in, navd_jump &jump) {
    return in >> jump.from >> jump.from_y >> jump.to >> jump.to_y >> jump.cost;
}

std::ostream &operator<<(std::ostream &out, const navd_point &point) { return out << point.x << ' ' << point.z; }

std::ostream &operator<<(std::ostream &out, const navd_polygon &polygon) { return out << polygon.tile << ' ' << polygon.index; }

std::ostream &operator<<(std::ostream &out, const navd_link &link) {
    return out << "link " << link.to << ' ' << link.left << ' ' << link.right << '\n';
}

std::ostream &operator<<(std::ostream &out, const navd_turn &turn) {
    return out << "turn " << turn.at << ' ' << (turn.side ? 'R' : 'L') << ' ' << turn.link << '\n';
}

void must(Status status) {
    if (status != Status::ok) throw std::runtime_error("a call ended with " + std::to_string(static_cast<uint32_t>(status)));
}

class Player {
public:
    Player(navd::Level opened, uint32_t most, const std::string &mode)
        : level(std::move(opened)), limit(most), by_view(!mode.empty()), with_more(mode == "more") {
        look();
    }

    void play(const std::string &line) {
        std::istringstream words(line);
        std::string word;
        uint32_t number = 0;
        words >> word;
        if (word == "add") {
            add(words);
        } else if (word == "remove" && words >> number) {
            remove(number);
        } else if (word == "drop" && words >> number) {
            const std::vector<uint32_t> &added = lanes[lane];
            remove(number && number <= added.size() ? added[number - 1] : 0);
        } else if (word == "lane" && words >> number) {
            lane = number % 16;
        } else if (word == "aim" || word == "settle" || word == "publish") {
            build(word);
        } else if ((word == "claim" || word == "back" || word == "submit") && words >> number) {
            work(word, number % 8);
        } else if (word == "jump") {
            navd_jump jump{};
            words >> jump;
            jumps.push_back(jump);
        } else {
            ask(word, words);
        }
    }

    void end() {
        std::cout << "done " << published << ' ' << entries << '\n';
        if (with_more) tell_all();
    }

private:
    struct Worker {
        navd::Job job;
        bool holds = false;
        uint32_t tile = 0;
    };

    void look() {
        uint32_t shown = 0;
        must(view.look(level, shown));
        if (shown != published) throw std::runtime_error("a view shows another version than the last publish");
    }

    // A question, asked of the level or of the view.
    template <class Question> Status asked(Question question) { return by_view ? question(view) : question(level); }

    void tell_entry(Status status, uint32_t entry, const char *done, uint32_t number = 0) {
        if (entry) entries = entry;
        if (status == Status::ok) {
            std::cout << "entry " << entry << ' ' << done << '\n';
        } else if (status == Status::too_many) {
            std::cout << "entry " << entry << " full " << limit << '\n';
        } else if (status == Status::dead) {
            std::cout << "entry " << entry << " dead " << number << '\n';
        } else if (status == Status::history_full) {
            std::cout << "history full " << entries << '\n';
        } else {
            must(status);
        }
    }

    void add(std::istream &words) {
        std::string kind;
        uint32_t area = 0, entry = 0;
        Status status{};
        words >> kind;
        if (kind == "area") words >> area >> kind;
        if (kind == "block") {
            navd_block block{};
            words >> block.x0 >> block.x1 >> block.y0 >> block.y1 >> block.z0 >> block.z1;
            status = level.add_block(block, area, entry);
        } else {
            navd_cylinder round{};
            words >> round.cx >> round.cz >> round.r >> round.y0 >> round.y1;
            status = level.add_cylinder(round, area, entry);
        }
        lanes[lane].push_back(status == Status::ok ? entry : 0);
        tell_entry(status, entry, "added");
    }

    void remove(uint32_t number) {
        uint32_t entry = 0;
        const Status status = level.remove(number, entry);
        tell_entry(status, entry, "removed", number);
    }

    void build(const std::string &word) {
        uint32_t number = 0;
        if (word == "aim") {
            must(level.aim(number));
            std::cout << "aim " << number << '\n';
        } else if (word == "settle") {
            must(level.settle(number));
            published = number;
            for (Worker &worker : workers) worker = Worker{};
            look();
            std::cout << "settled " << number << '\n';
        } else {
            const Status status = level.publish(number);
            if (status != Status::not_yet) published = number;
            if (status != Status::not_yet && status != Status::same) must(status);
            look();
            std::cout << (status == Status::ok ? "published " : status == Status::same ? "same " : "notyet ") << number << '\n';
        }
    }

    void work(const std::string &word, uint32_t number) {
        Worker &worker = workers[number];
        if (word == "claim") {
            claim(worker, number);
        } else if (!worker.holds) {
            std::cout << "idle " << number << '\n';
        } else if (word == "back") {
            must(level.put_back(worker.job));
            std::cout << "back " << number << " tile " << worker.tile << '\n';
            worker.holds = false;
        } else {
            const Status status = level.submit(worker.job);
            if (status != Status::stale) must(status);
            std::cout << "submit " << number << (status == Status::ok ? " taken " : " stale ") << worker.tile << '\n';
            worker.holds = false;
        }
    }

    void claim(Worker &worker, uint32_t number) {
        if (worker.holds) {
            std::cout << "busy " << number << '\n';
            return;
        }
        const Status status = level.claim(worker.job, worker.tile);
        if (status == Status::same) {
            std::cout << "claim " << number << " none\n";
            return;
        }
        must(status);
        worker.holds = true;
        must(worker.job.build());
        std::cout << "claim " << number << " tile " << worker.tile << '\n';
    }

    // A place or a way that is not there is an answer.
    bool is_refusal(Status status) const {
        const char *word = status == Status::no_start ? "nostart" : status == Status::no_goal ? "nogoal"
                         : status == Status::no_path ? "nopath" : nullptr;
        if (word) {
            std::cout << word << ' ' << published << '\n';
        } else if (status != Status::wall) {
            must(status);
        }
        return word;
    }

    void ask(const std::string &word, std::istream &words) {
        navd_way way{};
        if (word == "floor") {
            uint32_t x = 0, z = 0;
            words >> x >> z;
            must(asked([&](auto &of) { return of.floors(x, z, floors); }));
            std::cout << "floors " << published << ' ' << floors.size();
            for (const navd_floor &floor : floors) std::cout << ' ' << floor.y << ' ' << floor.area;
            std::cout << '\n';
        } else if (word == "path" && words >> way) {
            find_path(way);
        } else if (word == "hop" && words >> way) {
            find_hop(way);
        } else if (word == "ray" && words >> way.from >> way.from_y >> way.to) {
            cast_ray(way);
        } else {
            std::cerr << "not played: " << word << '\n';
        }
    }

    void find_path(const navd_way &way) {
        if (with_more) walk(way);
        if (is_refusal(asked([&](auto &of) { return of.find_path(way, path); }))) return;
        std::cout << "path " << published << ' ' << path.cost << ' ' << path.first << ' ' << path.links.size() << ' ' << path.turns.size()
                  << '\n';
        for (const navd_link &link : path.links) std::cout << link;
        for (const navd_turn &turn : path.turns) std::cout << turn;
    }

    void find_hop(const navd_way &way) {
        if (is_refusal(asked([&](auto &of) { return of.find_hop(way, jumps, hop); }))) return;
        std::cout << "hop " << published << ' ' << hop.cost << ' ' << hop.first << ' ' << hop.steps.size() << ' ' << hop.turns.size()
                  << '\n';
        for (const navd_step_taken &step : hop.steps) {
            if (step.kind) {
                std::cout << "jump " << step.jump << ' ' << step.link.to << '\n';
            } else {
                std::cout << step.link;
            }
        }
        for (const navd_turn &turn : hop.turns) std::cout << turn;
    }

    void cast_ray(const navd_way &way) {
        navd_ray ray{};
        const Status status = asked([&](auto &of) { return of.cast_ray(way, ray); });
        if (is_refusal(status)) return;
        if (status == Status::ok) {
            std::cout << "reached " << published << ' ' << ray.last << '\n';
        } else {
            std::cout << "wall " << published << ' ' << ray.a << ' ' << ray.b << ' ' << ray.num << ' ' << ray.den << '\n';
        }
    }

    // == What no script asks for ==

    void walk(const navd_way &way) {
        navd_walker walker{};
        std::vector<navd_link> links;
        Status status = asked([&](auto &of) { return of.send(way, walker, links); });
        for (int i = 0; status == Status::ok && i < 8; i++) {
            std::cout << "walker " << walker.polygon << ' ' << walker.at << ' ' << walker.y << ' ' << walker.cost << ' ' << links.size()
                      << '\n';
            for (const navd_link &link : links) std::cout << link;
            status = asked([&](auto &of) { return of.march(walker, 40, links); });
        }
    }

    void tell_tile(uint32_t tile) {
        std::vector<navd_face> faces;
        std::vector<navd_link> links;
        must(asked([&](auto &of) { return of.polygons(tile, faces); }));
        std::cout << "tile " << tile << ' ' << faces.size() << '\n';
        for (const navd_face &face : faces) {
            std::cout << "polygon " << face.area << ' ' << face.low << ' ' << face.high;
            for (uint32_t i = 0; i < face.corners; i++) std::cout << ' ' << face.corner[i].x << ' ' << face.corner[i].z;
            std::cout << '\n';
        }
        must(asked([&](auto &of) { return of.inner_links(tile, links); }));
        for (const navd_link &link : links) std::cout << "inner " << link.from << ' ' << link.edge << ' ' << link;
        must(asked([&](auto &of) { return of.border_links(tile, links); }));
        for (const navd_link &link : links) std::cout << "border " << link.from << ' ' << link.edge << ' ' << link;
    }

    void tell_all() {
        uint32_t number = 0;
        must(level.put_back_all());
        must(level.settle(number));
        published = number;
        look();
        navd_counts counts{};
        navd_shown shown{};
        must(level.count(counts));
        must(view.count(shown));
        std::cout << "counts " << counts.history << ' ' << counts.target << ' ' << counts.published << ' ' << counts.tiles << ' '
                  << counts.polygons << ' ' << counts.links << ' ' << shown.published << ' ' << shown.tiles << '\n';
        for (uint32_t tile = 0; tile < counts.tiles; tile++) tell_tile(tile);
        std::vector<navd_obstacle> obstacles;
        must(level.obstacles(obstacles));
        for (const navd_obstacle &it : obstacles) {
            std::cout << "obstacle " << it.number << ' ' << it.area << ' ' << it.kind << ' ' << it.block.x0 << ' ' << it.block.z1 << ' '
                      << it.cylinder.cx << ' ' << it.cylinder.y1 << '\n';
        }
        std::vector<uint32_t> numbers;
        must(level.prepare());
        must(level.renew(numbers));
        std::cout << "renewed";
        for (const uint32_t old : numbers) std::cout << ' ' << old;
        std::cout << '\n';
        const std::vector<uint32_t> costs(64, 2);
        must(view.set_costs(costs));
    }

    navd::Level level;
    navd::View view;
    uint32_t limit;
    bool by_view, with_more;
    uint32_t published = 0, entries = 0, lane = 0;
    std::vector<uint32_t> lanes[16]; // what each lane's add lines added, in order: obstacles by their numbers, or 0
    Worker workers[8];
    std::vector<navd_jump> jumps;
    std::vector<navd_floor> floors;
    navd::Path path;
    navd::Hop hop;
};

int play(const std::string &text, const std::string &mode) {
    navd::Level level;
    navd_fault fault{};
    const Status status = level.open(text, fault);
    if (status == Status::faulty) {
        std::cout << "fault " << fault.line << ' ' << fault.kind << '\n';
        return 1;
    }
    must(status);
    std::istringstream lines(text);
    std::string line;
    uint32_t limit = 0;
    while (std::getline(lines, line) && line.rfind("script ", 0) != 0) {
        if (line.rfind("limit ", 0) == 0) limit = static_cast<uint32_t>(std::stoul(line.substr(6)));
    }
    Player player(std::move(level), limit, mode);
    while (std::getline(lines, line)) player.play(line);
    player.end();
    return 0;
}

} // namespace

int main(int argc, char **words) {
    try {
        return play(std::string(std::istreambuf_iterator<char>(std::cin), {}), argc > 1 ? words[1] : "");
    } catch (const std::exception &error) {
        std::cerr << error.what() << '\n';
        return 6;
    }
}
