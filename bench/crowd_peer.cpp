// The peer of bench/crowd.c: the same scene by dtCrowd, over Recast, DetourTileCache and Detour, with the settings of RecastDemo at these sizes and
// obstacle avoidance of the best quality.
//
//     crowd_peer FIELD AGENTS SECONDS [LOG]
//
// What is written stands in crowd.h. An agent is off the mesh where the polygon under it does not hold its middle.
#include <DetourCrowd.h>

#include "crowd.h"
#include "peer_level.h"

static scene it;
static outcome told;

static dtCrowdAgentParams settings() {
    dtCrowdAgentParams p{};
    p.radius = RADIUS, p.height = 10, p.maxSpeed = SPEED, p.maxAcceleration = 8 / 3.5f * SPEED;
    p.collisionQueryRange = p.radius * 12, p.pathOptimizationRange = p.radius * 30;
    p.updateFlags = DT_CROWD_ANTICIPATE_TURNS | DT_CROWD_OPTIMIZE_VIS | DT_CROWD_OPTIMIZE_TOPO | DT_CROWD_OBSTACLE_AVOIDANCE;
    p.obstacleAvoidanceType = 3, p.separationWeight = 2;
    return p;
}

static spot at(dtCrowd& crowd, int agent) { return {crowd.getAgent(agent)->npos[0], crowd.getAgent(agent)->npos[2]}; }

static bool is_held(const dtNavMesh& mesh, const dtCrowdAgent* agent) {
    const dtMeshTile* tile = nullptr;
    const dtPoly* poly = nullptr;
    if (dtStatusFailed(mesh.getTileAndPolyByRef(agent->corridor.getFirstPoly(), &tile, &poly))) return false;
    float corners[3 * DT_VERTS_PER_POLYGON];
    for (int i = 0; i < poly->vertCount; i++) dtVcopy(corners + 3 * i, &tile->verts[3 * poly->verts[i]]);
    float distances[DT_VERTS_PER_POLYGON], t[DT_VERTS_PER_POLYGON];
    if (dtDistancePtPolyEdgesSqr(agent->npos, corners, poly->vertCount, distances, t)) return true;
    for (int i = 0; i < poly->vertCount; i++)
        if (distances[i] <= SLACK * SLACK) return true;
    return false;
}

static void write_step(FILE* log, dtCrowd& crowd, const std::vector<int>& there) {
    std::vector<bool> is(it.count);
    for (int i : there) is[i] = true;
    for (int i = 0; i < it.count; i++)
        if (is[i]) fprintf(log, "%.0f,%.0f ", at(crowd, i).x * 256, at(crowd, i).z * 256);
        else fprintf(log, "- ");
    fprintf(log, "\n");
}

int main(int count, char** words) {
    must(count == 4 || count == 5, "usage: crowd_peer FIELD AGENTS SECONDS [LOG]");
    FILE* log = count == 5 ? fopen(words[4], "w") : nullptr;
    const Field field = read_field(words[1]);
    read_scene(words[2], &it);
    Level level(field, 1);
    dtCrowd crowd;
    must(crowd.init(it.count, RADIUS, level.mesh), "dtCrowd::init");
    dtObstacleAvoidanceParams avoid = *crowd.getObstacleAvoidanceParams(0);
    avoid.velBias = 0.5f, avoid.adaptiveDivs = 7, avoid.adaptiveRings = 3, avoid.adaptiveDepth = 3;
    crowd.setObstacleAvoidanceParams(3, &avoid);
    const float reach[3] = {4, 20, 4};
    std::vector<int> there;
    for (int i = 0; i < it.count; i++) {
        const float start[3] = {float(it.start[i].x), 10, float(it.start[i].z)}, goal[3] = {float(it.goal[i].x), 10, float(it.goal[i].z)};
        const dtCrowdAgentParams p = settings();
        must(crowd.addAgent(start, &p) == i, "addAgent");
        dtPolyRef ref = 0;
        float point[3];
        must(!dtStatusFailed(level.query->findNearestPoly(goal, reach, &level.filter, &ref, point)) && ref, "findNearestPoly");
        must(crowd.requestMoveTarget(i, ref, point), "requestMoveTarget");
        there.push_back(i);
    }
    static spot before[MOST_AGENTS], after[MOST_AGENTS];
    for (int k = 1; k <= atoi(words[3]) * STEPS_A_SECOND && !there.empty(); k++) {
        const double time = double(k) / STEPS_A_SECOND;
        if (log) write_step(log, crowd, there);
        for (size_t i = 0; i < there.size(); i++) before[i] = at(crowd, there[i]);
        COUNT_ON;
        crowd.update(1.0f / STEPS_A_SECOND, nullptr);
        COUNT_OFF;
        for (size_t i = 0; i < there.size(); i++) after[i] = at(crowd, there[i]), told.off += !is_held(*level.mesh, crowd.getAgent(there[i]));
        add_step(&told, &it, there.data(), int(there.size()), before, after, time);
        std::vector<int> left;
        for (size_t i = 0; i < there.size(); i++)
            if (!has_arrived(&it, there[i], after[i])) left.push_back(there[i]);
            else crowd.removeAgent(there[i]), told.arrived++, told.last = time;
        there = left;
    }
    COUNT_TOLD("steps");
    tell(&told, &it);
    return 0;
}
