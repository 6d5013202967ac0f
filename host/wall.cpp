// The wall: a truck panel and a road panel of gauges, and a low strip of lamp icons, laid out driving and then parked.
// Parked, the truck's slip is 0 divided by 0, and a careless measure makes a NaN width of it. That panel is refused and
// keeps its last good frame; the others are laid out as ever.
// wall GAUGES FOLDER: reads the gauges, prints both frames, and draws each into FOLDER as wall-driving.svg and
// wall-parked.svg.
#include <cmath>
#include <cstdio>
#include <fstream>
#include <sstream>

#include "fratolivem.hpp"

namespace {

enum frame_no { driving, parked, frames };
const char *const frame_name[frames] = {"driving", "parked"};

struct gauge {
    std::string label, kind;
    float value[frames];
};

// What a panel shows, and where. Its frame may be older than its gauges' values: then `note` says why.
struct wall_panel {
    std::string name;
    std::vector<gauge> gauges;
    fratolivem::panel panel;
    std::vector<float> shown;
    std::string note;
};

// A sensor's number, or the quotient of two.
float sensor(const std::string &text) {
    const auto slash = text.find('/');
    const float x = std::stof(text);
    return slash == std::string::npos ? x : x / std::stof(text.substr(slash + 1));
}

bool read_gauges(const char *path, std::vector<wall_panel> &wall) {
    std::ifstream file(path);
    std::string line;
    while (std::getline(file, line)) {
        if (line.empty() || line[0] == '#') continue;
        std::istringstream words(line);
        std::string panel, values[frames];
        gauge g;
        if (!(words >> panel >> g.label >> g.kind >> values[driving] >> values[parked])) return false;
        for (int f = 0; f < frames; f++) g.value[f] = sensor(values[f]);
        if (wall.empty() || wall.back().name != panel) wall.push_back({panel, {}, {}, {}, {}});
        wall.back().gauges.push_back(g);
    }
    return !wall.empty();
}

std::string number_text(float x) {
    char text[32];
    std::snprintf(text, sizeof text, "%g", double(x));
    return text;
}

float on_grid(float px) { return std::round(px * 64.0f) / 64.0f; }

// An icon has auto margins above and below.
fratolivem::item icon() {
    fratolivem::item it{40, 40};
    it.auto_cross_start = it.auto_cross_end = 1;
    return it;
}

// The host's measuring. A bar is as long as its value, so what is wrong with the value is wrong with the width: nothing
// here looks.
fratolivem::item measure(const gauge &g, float value) {
    if (g.kind == "dial") return {104, 104};
    if (g.kind == "icon") return icon();
    const bool is_bar = g.kind == "bar", is_lamp = g.kind == "lamp";
    const float characters = float(g.label.size() + (is_lamp ? 0 : number_text(value).size()));
    fratolivem::item it{on_grid(is_bar ? 96 + 64 * value : 24 + 7.25f * characters), 40};
    it.align_self = FRATOLIVEM_CENTER;
    if (is_lamp) return it;
    it.grow = 1;
    return it.maximum(320);
}

// A panel is 960 px wide, its lines balanced and 8 px apart, and as high as they make it.
fratolivem::container panel_container() {
    const auto limit = fratolivem::break_limit(true, true, true, fratolivem::space::definite(960));
    fratolivem::container c{960, 8, limit.value()};
    c.wrap = FRATOLIVEM_BALANCE;
    c.justify_content = FRATOLIVEM_SPACE_BETWEEN;
    return c.across({}, 8, 120);
}

// The strip is one line, and lower than its icons: their auto margins leave them at its upper edge, so that they
// overflow below alone.
fratolivem::container strip_container() {
    fratolivem::container c{960, 8, fratolivem::space::max_content()};
    return c.across(24, 0);
}

void lay(wall_panel &p, int f) {
    std::vector<fratolivem::item> items;
    for (const gauge &g : p.gauges) items.push_back(measure(g, g.value[f]));
    const auto answer = p.panel.lay(p.name == "strip" ? strip_container() : panel_container(), items);
    p.note.clear();
    if (answer) {
        p.shown.clear();
        for (const gauge &g : p.gauges) p.shown.push_back(g.value[f]);
        return;
    }
    p.note = "refused " + std::to_string(answer.number) + ": " + answer.text();
    if (answer.where == FRATOLIVEM_AT) p.note += " (" + p.gauges[answer.place].label + ")";
    p.note += "; its last good frame stays";
}

// The gauges that stand out of their panel, and how far.
void print_overflow(const wall_panel &p) {
    const fratolivem::frame &f = p.panel.last();
    const auto boxes = fratolivem::boxes(f);
    for (std::size_t i = 0; i < boxes.size(); i++) {
        const float start = boxes[i].cross, end = start + boxes[i].cross_size;
        if (start < 0 || end > f.inner_cross)
            std::printf("    %s overflows: from %g to %g px of %g (used margins %g and %g)\n",
                        p.gauges[i].label.c_str(), double(start), double(end), double(f.inner_cross),
                        double(f.items[i].cross_start), double(f.items[i].cross_end));
    }
}

void print(const wall_panel &p) {
    const fratolivem::frame &f = p.panel.last();
    std::printf("  %s: %zu gauges in %zu line%s, %g px high%s%s\n", p.name.c_str(), f.items.size(), f.lines.size(),
                f.lines.size() == 1 ? "" : "s", double(f.inner_cross), p.note.empty() ? "" : "\n    ", p.note.c_str());
    std::size_t i = 0;
    for (const auto &line : f.lines) {
        std::printf("   ");
        for (std::uint32_t k = 0; k < line.count; k++, i++)
            std::printf(" %s %.1f", p.gauges[i].label.c_str(), double(f.items[i].main_size));
        std::printf("  (%.1f px free before flexing, %u round%s of it)\n", line.free / 64.0, line.rounds,
                    line.rounds == 1 ? "" : "s");
    }
    print_overflow(p);
}

void draw_gauge(std::ofstream &svg, const gauge &g, float value, const fratolivem::box &b, float x, float y) {
    const float left = x + b.main, top = y + b.cross, middle = left + b.main_size / 2;
    svg << "<rect x='" << left << "' y='" << top << "' width='" << b.main_size << "' height='" << b.cross_size
        << "' rx='6' fill='#1d2733' stroke='#3c5066'/>\n";
    if (g.kind == "bar")
        svg << "<rect x='" << left + 8 << "' y='" << top + b.cross_size - 12 << "' width='"
            << (b.main_size - 16) * value << "' height='6' rx='3' fill='#4fb3ff'/>\n";
    if (g.kind == "dial")
        svg << "<circle cx='" << middle << "' cy='" << top + 60
            << "' r='32' fill='none' stroke='#4fb3ff' stroke-width='4'/>\n";
    if (g.kind == "lamp" || g.kind == "icon")
        svg << "<circle cx='" << middle << "' cy='" << top + 30 << "' r='5' fill='"
            << (value > 0 ? "#ffb347" : "#3c5066") << "'/>\n";
    svg << "<text x='" << middle << "' y='" << top + 17 << "'>" << g.label << "</text>\n";
    if (g.kind == "dial")
        svg << "<text x='" << middle << "' y='" << top + 65 << "'>" << number_text(value) << "</text>\n";
    if (g.kind == "text")
        svg << "<text x='" << middle << "' y='" << top + 33 << "' fill='#4fb3ff'>" << number_text(value) << "</text>\n";
}

bool draw(const std::vector<wall_panel> &wall, const std::string &path) {
    const float width = 1008, head = 36, pad = 24;
    float height = pad;
    for (const auto &p : wall) height += head + p.panel.last().inner_cross + pad;
    std::ofstream svg(path);
    svg << "<svg xmlns='http://www.w3.org/2000/svg' viewBox='0 0 " << width << ' ' << height
        << "' font-family='sans-serif' font-size='12' text-anchor='middle' fill='#d8e2ec'>\n<rect width='100%' "
           "height='100%' fill='#0f151c'/>\n";
    float y = pad;
    for (const auto &p : wall) {
        svg << "<text x='" << pad << "' y='" << y + 18 << "' font-size='16' text-anchor='start'>" << p.name
            << "</text>\n<text x='" << width - pad << "' y='" << y + 18 << "' text-anchor='end' fill='#ff6b6b'>"
            << p.note << "</text>\n";
        y += head;
        svg << "<rect x='" << pad << "' y='" << y << "' width='" << width - 2 * pad << "' height='"
            << p.panel.last().inner_cross << "' fill='#141c25'/>\n";
        const auto boxes = fratolivem::boxes(p.panel.last());
        for (std::size_t i = 0; i < boxes.size(); i++) draw_gauge(svg, p.gauges[i], p.shown[i], boxes[i], pad, y);
        y += p.panel.last().inner_cross + pad;
    }
    svg << "</svg>\n";
    return bool(svg);
}

} // namespace

int main(int argc, char **argv) {
    std::vector<wall_panel> wall;
    if (argc != 3 || !read_gauges(argv[1], wall)) {
        std::fprintf(stderr, "usage: wall GAUGES FOLDER\n");
        return 1;
    }
    for (int f = 0; f < frames; f++) {
        std::printf("%s\n", frame_name[f]);
        for (auto &p : wall) lay(p, f), print(p);
        const std::string path = std::string(argv[2]) + "/wall-" + frame_name[f] + ".svg";
        if (!draw(wall, path)) {
            std::fprintf(stderr, "cannot write %s\n", path.c_str());
            return 1;
        }
        std::printf("  drawn: %s\n\n", path.c_str());
    }
}
