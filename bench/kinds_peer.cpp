// The peer of bench/kinds.c, over Recast, DetourTileCache and Detour: doors that are put up at the same places as boxes and as turned boxes.
//
//     kinds_peer LEVEL KIND PLACES UNIT
//
// KIND is `box` or `turned`, and UNIT how high a height unit is, in cells. What a line of PLACES says stands in kinds.c, and what is written too.
#include <cstdio>
#include <cstdlib>
#include <fstream>
#include <string>
#include <vector>

#include "counted.h"
#include "peer_level.h"

enum { DOORS = 24 };

struct Door {
    float middle[3], half[3], from[3], to[3], angle;
};

static Door door_at(float x, float z, float y, float angle, float height, float unit) {
    Door door{};
    const float low = std::max(0.0f, y - 2) * unit, high = (y + height) * unit;
    const float middle[3] = {x / 16, (low + high) / 2, z / 16}, half[3] = {3, (high - low) / 2, 0.5f};
    for (int i = 0; i < 3; i++) door.middle[i] = middle[i], door.half[i] = half[i], door.from[i] = middle[i] - half[i], door.to[i] = middle[i] + half[i];
    // the block of kinds.c begins three columns before that of the middle
    door.from[0] = std::floor(middle[0]) - 3, door.to[0] = door.from[0] + 6;
    door.angle = angle / 1000;
    return door;
}

int main(int count, char** words) {
    must(count == 5, "usage: kinds_peer LEVEL box | turned PLACES UNIT");
    const bool turned = std::string(words[2]) == "turned";
    const float unit = atof(words[4]);
    const Field field = read_field(words[1]);
    std::vector<Door> doors;
    std::ifstream in(words[3]);
    float x, z, y, angle;
    while (in >> x >> z >> y >> angle) doors.push_back(door_at(x, z, y, angle, field.height, unit));
    std::vector<dtObstacleRef> refs(doors.size());
    // more room than doors that stand: an obstacle that goes keeps its own for good where it touched no tile
    Level level(field, unit, 4 * DOORS);
    const double begun = now();
    COUNT_FROM_HERE;
    for (size_t i = 0; i < doors.size(); i++) {
        const Door& it = doors[i];
        const dtStatus status = turned ? level.cache->addBoxObstacle(it.middle, it.half, it.angle, &refs[i]) : level.cache->addBoxObstacle(it.from, it.to, &refs[i]);
        must(!dtStatusFailed(status), "addBoxObstacle");
        if (i >= DOORS) must(!dtStatusFailed(level.cache->removeObstacle(refs[i - DOORS])), "removeObstacle");
        for (bool settled = false; !settled;) must(!dtStatusFailed(level.cache->update(0, level.mesh, &settled)), "update");
    }
    COUNT_TO_HERE(words[2]);
    printf("%s %.0f %zu\n", words[2], (now() - begun) / doors.size() * 1e9, doors.size());
    return 0;
}
