/* navd.h: a level with obstacles that come and go, and the ways through it.
 *
 * A level is opened from the bytes of a field text, and held by a handle. Obstacles are added to it and removed from it; each such request
 * is one entry of the level's history. What was built and published last is what questions are answered from: `navd_settle` builds all that
 * the history asks for and publishes it, and `navd_aim`, `navd_step` and `navd_publish` do the same one tile at a time.
 *
 * Units. The ground is cut into columns of one cell by one cell; x grows to the right and z upward. Points are in sixteenths of a cell.
 * Heights are in the field text's units, 0 to 8191. Costs are in sixteenths of a cell times the cost of the area that is walked on.
 *
 * Handles. A handle whose bytes are all 0 holds nothing, and each call is given the address of one. No call but these changes a handle, and a
 * host reads nothing in it. It may be moved to another place; a copy that is used beside the original is not allowed. What a handle holds is on
 * the heap. That goes back once the handle is closed, or holds something else (tested).
 *
 * Addresses. None is null, and each is aligned for its type. The places that are handed to one call do not overlap, and what a call is handed to
 * read stays as it is while the call runs. A place for an answer alone need not be written before.
 *
 * Arrays. An array is given by its address and by how many elements it has room for. That is the room that is there, at most PTRDIFF_MAX bytes:
 * SIZE_MAX does not stand for 'enough'. Where there is room for none, or no element (as the jumps of a hop), any address will do that is aligned
 * and not null, as that of one element beside: the data() of an empty std::vector may be null. As much is laid into an array as there is room
 * for, and what is behind that stays as it was; how many there are is told beside it. Who had too little room asks once more, and is told the
 * same (tested).
 *
 * Ends. Each call ends with one of the numbers below that stand at it, and with no other: where NAVD_NO_MEMORY is not among them, want of memory
 * does not stop it. Where it says of an out parameter nothing else, that is unchanged unless the call ended with NAVD_OK.
 *
 * Threads. A handle is in one call at a time, questions too; it may go from thread to thread, by a lock or by the start or the end of a thread.
 * Calls of two handles may run side by side (tested), also of a level and of views and jobs of it: so one thread changes a level while others ask
 * views, each its own, or build jobs. A view is brought up to a level by navd_look, to another view by navd_view_copy, and a job is claimed, handed in and
 * put back by calls that are of both. No call is made from a signal handler, nor in the forked child of a process that has threads.
 *
 * Stack. Little is wanted: `navd play` of the examples runs with a stack of 48 kilobytes, `ulimit -s 48` (measured).
 *
 * Memory comes from three functions that the host provides (hosts/c/heap.c has them over malloc). They come from one allocator, align blocks to
 * `align`, which is a power of two up to 16, and are called from no signal handler. Where memory is refused, `ok` is false, `block` is any
 * address that is not null, and a block that was to be made another size is as it was; a size may be 0. Where levels are in calls on several
 * threads, the three are called from these at once. They return: no longjmp and no exception goes through the library. They make no call of a
 * handle that is in a call.
 *     typedef struct { bool ok; void *block; } navd_tried;
 *     navd_tried rattle_alloc(size_t size, size_t align);
 *     navd_tried rattle_realloc(void *block, size_t kept, size_t size, size_t align);
 *     void rattle_dealloc(void *block);
 *
 * Proofs. What stands at a call is proved, for hosts that keep to this head, but where it says (tested) or (measured). docs/EMBEDDING.md names the
 * definitions. How many corners a polygon has and which way round, its area, and the order of links are proved where meshes are built.
 */
#ifndef NAVD_H
#define NAVD_H

#include <stddef.h>
#include <stdint.h>

#ifdef __cplusplus
extern "C" {
#endif

/* The version, as major * 10000 + minor * 100 + patch: of this header, and (navd_version) of the library. */
#define NAVD_VERSION 100u

#define NAVD_OK 0u            /* all was done */
#define NAVD_NO_MEMORY 1u     /* memory was refused; nothing that was there is lost */
#define NAVD_EMPTY 2u         /* the handle holds nothing; nothing was done */
#define NAVD_FAULTY 3u        /* the text has a fault */
#define NAVD_OUT_OF_RANGE 4u  /* a number is out of its limits; nothing was done */
#define NAVD_TOO_MANY 5u      /* as many obstacles are alive as may be: the entry was made, and no obstacle */
#define NAVD_DEAD 6u          /* no obstacle with this number is alive: the entry was made, and nothing went */
#define NAVD_HISTORY_FULL 7u  /* the history has 262144 entries, the most that it can have; nothing was done */
#define NAVD_NOT_YET 8u       /* something is not built or published yet; nothing was done */
#define NAVD_SAME 9u          /* it was so before; nothing was done */
#define NAVD_NO_START 10u     /* there is no place where the path, the ray or the slide is to begin */
#define NAVD_NO_GOAL 11u      /* there is no place where the path is to end */
#define NAVD_NO_PATH 12u      /* both places are held, and no walk joins them */
#define NAVD_WALL 13u         /* the ray ends at an edge */
#define NAVD_NO_ROOM 14u      /* there is too little room for what is told; nothing was done */
#define NAVD_STALE 15u        /* the build is wanted no more; it was let go */
#define NAVD_FOREIGN 16u      /* the job, or what was saved, is of another ground; nothing was done */
#define NAVD_BUSY 17u         /* the job's handle holds a job, or obstacles of the level are alive; nothing was done */
#define NAVD_TOO_MANY_SPANS 18u /* the triangles give more than 2000000 spans, the most that a field can have */
#define NAVD_PARTIAL 19u        /* no way leads to the goal, or none within the limits; the way to the nearest place was found */
#define NAVD_LIMIT 20u          /* a limit ended the search: a way there, if there is one, costs no less than `seen` */
#define NAVD_CUT 21u            /* the kept path leads on in part; no polygon holds the middle of the cell that was drawn */
#define NAVD_NO_PLACE 22u       /* no place, or no wall, is in reach, or the place is none of the mesh */
#define NAVD_NO_OBSTACLE 24u    /* no obstacle has the id; nothing was done */
#define NAVD_NOT_SAVED 25u      /* the bytes are not what a save wrote; nothing was done */
#define NAVD_ABOUT 26u          /* a line was found; the shortest may be shorter, by no more than `upper` less `lower` */
#define NAVD_OVERLAPS 27u       /* the agent overlaps another one; where it stands is told all the same */

/* A handle of a level. Zeroed, it holds nothing: navd_level level = {0}; */
typedef struct {
    void *at;
    uint32_t full;
} navd_level;

/* A handle of a view: what one reader has of a level, the mesh as it was published when the reader last looked. Zeroed, it holds nothing. */
typedef struct {
    void *at;
    uint32_t full;
} navd_view;

/* A handle of a job: a tile that is claimed of a level, and all that it is built from. Zeroed, it holds nothing. */
typedef struct {
    void *at;
    uint32_t full;
} navd_job;

/* A handle of a registry: a level whose obstacles have ids that stay. Zeroed, it holds nothing. */
typedef struct {
    void *at;
    uint32_t full;
} navd_registry;

/* A handle of kinds: levels of several kinds of agents over one ground, with one history. Zeroed, it holds nothing. */
typedef struct {
    void *at;
    uint32_t full;
} navd_kinds;

/* A point, in sixteenths of a cell. */
typedef struct {
    int32_t x, z;
} navd_point;

/* A point of a game, y up, and a place in a frame: x and z in sixteenths of a cell from its corner, y in height units. */
typedef struct {
    float x, y, z;
} navd_world_point;

typedef struct {
    int32_t x, y, z;
} navd_frame_place;

/* The sizes of a cell and a height unit in the game's unit, and the corner of a field, in cells and height units from 0 of its numbers. */
typedef struct {
    float cell_size, cell_height;
    int32_t x, y, z;
} navd_frame;

/* A frame, and the columns of its field along x and z. */
typedef struct {
    navd_frame frame;
    uint32_t width, depth;
} navd_framed_field;

/* How steep a triangle may be that somebody can walk on: `rise` height units, 0 to 16384, over `run` sixteenths of a cell, 0 to 131072; with 0
 * nothing is too steep. Where `both_sides` is not 0, the side that lies up does not matter. */
typedef struct {
    uint32_t rise, run, both_sides;
} navd_slope;

/* What the header of a field text says, in its limits (docs/FORMATS.md): where `contours` is 0 a polygon is a strip of cells, and where `clear` is 0
 * agents keep their radius from walls alone. */
typedef struct {
    uint32_t width, depth, tile, height, climb, radius, error, contours, limit, clear;
} navd_setting;

typedef struct {
    navd_frame frame;
    navd_slope slope;
    navd_setting setting;
} navd_mesh;

/* A kind of agent: how high it stands, 1 to 255, and steps, below that; how many cells it keeps from walls, 0 to 15, and where `clear` is not 0 from
 * obstacles too; and the side of its tiles, 4 to 128 columns, with `clear` at least twice the radius. */
typedef struct {
    uint32_t height, climb, radius, clear, tile;
} navd_kind;

/* What kinds share: 1 to 1024 columns a side; the error of outlines, 0 to 10000; where `contours` is 0 a polygon is a strip of cells; and how many
 * obstacles may be alive at once, 1 to 1024. */
typedef struct {
    uint32_t width, depth, error, contours, limit;
} navd_ground;

/* A solid piece of the column (x, z), from its bottom up to its top, 0 to 8191, which is more; the top has an area, 0 to 63. */
typedef struct {
    uint32_t x, z, bottom, top, area;
} navd_span;

/* A rectangle of columns: x0 to x1 and z0 to z1. */
typedef struct {
    uint32_t x0, x1, z0, z1;
} navd_columns;

/* A triangle that fails: how many stand before it, and why. 1: it names a vertex that there is none of. 2: a number is none, or infinite. 3: a corner
 * lies outside the field. 4: its area is above 63. */
typedef struct {
    size_t place;
    uint32_t kind;
} navd_mesh_fault;

/* A block: the columns x0 to x1 and z0 to z1, 0 to 1023, where a floor lies at y0 to y1, 0 to 8191. No range runs backwards. */
typedef struct {
    uint32_t x0, x1, y0, y1, z0, z1;
} navd_block;

/* A cylinder: a centre in half cells, 0 to 2048, and a radius in cells, 0 to 1023. It reaches the columns whose middle is at most r cells and
 * a half from the centre, where a floor lies at y0 to y1. */
typedef struct {
    uint32_t cx, cz, r, y0, y1;
} navd_cylinder;

/* A prism: how many corners its base has, 3 to 6, and these, counterclockwise and strictly convex, each part -16384 to 81920; those behind them are
 * not read. Where it stops agents it covers each column with which it shares area, so that nothing leaks through a thin door; where it gives an area
 * it covers the columns whose middles it holds; in both where a floor lies at y0 to y1, 0 to 8191, which do not run backwards. */
typedef struct {
    uint32_t corners;
    navd_point point[6];
    uint32_t y0, y1;
} navd_prism;

/* A disc: a centre, each part -16384 to 81920, and a radius, 1 to 16384, in sixteenths of a cell. It covers cells as a prism does. */
typedef struct {
    int32_t x, z;
    uint32_t r, y0, y1;
} navd_disc;

/* An obstacle of a registry as a solid: its kind, a block (0), a cylinder (1), a prism (2) or a disc (3), the area that it gives, 1 to 63, or 0 where it
 * stops agents, and its numbers. The numbers of what it is not are not read, and are told as 0. */
typedef struct {
    uint32_t kind, area;
    navd_block block;
    navd_cylinder cylinder;
    navd_prism prism;
    navd_disc disc;
} navd_solid;

/* An obstacle of a registry: its id, from 1, the host's own number, whether it is switched on (1) or off (0), and what it is. */
typedef struct {
    uint64_t id, user;
    uint32_t enabled;
    navd_solid solid;
} navd_row;

/* What an update did: how many tiles it built, whether something new is shown (1) or not (0), whether some of what was asked for is not shown yet (1)
 * or all of it is (0), and the version, which is how often something new was shown. */
typedef struct {
    uint32_t built, published, pending;
    uint64_t version;
} navd_updated;

/* From where to where: points from -65536 to 65536, each with a height that says in which storey; a ray has no height at its end. */
typedef struct {
    navd_point from;
    uint32_t from_y;
    navd_point to;
    uint32_t to_y;
} navd_way;

/* A polygon by its tile and its place there, from 0. */
typedef struct {
    uint32_t tile, index;
} navd_polygon;

/* A way from one polygon into another over an edge of the first, through the portal from right to left. */
typedef struct {
    navd_polygon from;
    uint32_t edge;
    navd_polygon to;
    navd_point left, right;
} navd_link;

/* A corner of a polygon, in whole cells. */
typedef struct {
    int32_t x, z;
} navd_corner;

/* A polygon as it is drawn: how many corners it has, 3 to 6, and these, counterclockwise, those behind them 0; its area, 1 to 63; and the least
 * and the greatest floor of its cells. */
typedef struct {
    uint32_t corners;
    navd_corner corner[6];
    uint32_t area, low, high;
} navd_face;

/* An obstacle: its number, the area that it gives, or 0 where it stops agents, and what it is: a block (0), a cylinder (1), a prism (2) or a
 * disc (3). The numbers of what it is not are 0; those of prisms and discs are not told. */
typedef struct {
    uint32_t number, area, kind;
    navd_block block;
    navd_cylinder cylinder;
} navd_obstacle;

/* A one-way jump from a place to another, as down a ledge or up a ladder, and what it costs, in the unit of paths. */
typedef struct {
    navd_point from;
    uint32_t from_y;
    navd_point to;
    uint32_t to_y;
    uint32_t cost;
} navd_jump;

/* A step of a walk over links and jumps: over a link (kind 0), or by a jump (kind 1), which is named by its place among the jumps that were handed
 * in, from 0; of a jump, `link.to` alone says something: the polygon that it enters. */
typedef struct {
    uint32_t kind, jump;
    navd_link link;
} navd_step_taken;

/* A walk over links and jumps. The host writes `way`; the call leaves what the walk costs, the polygon in which it begins, and how many steps and
 * turns it has. */
typedef struct {
    navd_way way;
    uint64_t cost;
    navd_polygon first;
    size_t steps, turns;
} navd_hop;

/* An agent on its way: the polygon in which it stands, its point and height, its goal and that one's height, what the way that is left costs, and
 * how many links that has. It is the host's own: nothing of it is kept behind the border. */
typedef struct {
    navd_polygon polygon;
    navd_point at;
    uint32_t y;
    navd_point goal;
    uint32_t goal_y;
    uint64_t cost;
    size_t links;
} navd_walker;

/* A turn of a path: round the left end (side 0) or the right end (side 1) of the portal of a link, which is named by its place from 0. */
typedef struct {
    navd_point at;
    uint32_t side, link;
} navd_turn;

/* A floor of a column: its height, and the area that is stood on, 1 to 63. */
typedef struct {
    uint32_t y, area;
} navd_floor;

/* A path: what its corridor costs, the polygon in which it begins, and how many links and turns it has. */
typedef struct {
    uint64_t cost;
    navd_polygon first;
    size_t links, turns;
} navd_path;

/* A line between two places, as short as the search finds it; what areas cost plays no part. The host writes `way`, after how many records of the search,
 * of about 100 bytes each, it ends with what was found by then, and whether it passes over ends of portals that the mesh surrounds (not 0), which makes it
 * several times as fast. The call leaves two numbers in 65536ths of a cell, the polygons in which the line begins and ends, and how many links and turns
 * it has. The line is not longer than `upper`, and no line over the links of the mesh is shorter than `lower`, which today is the straight distance. */
typedef struct {
    navd_way way;
    uint32_t most, quick;
    uint64_t upper, lower;
    navd_polygon first, last;
    size_t links, turns;
} navd_line;

/* Where a ray ends. NAVD_OK: in `last`, which holds the point. NAVD_WALL: at the edge from a to b; num / den of the way leads up to it. */
typedef struct {
    navd_polygon last;
    navd_point a, b;
    int64_t num, den;
} navd_ray;

/* A way through a filter. The host writes `way`, the areas that may be entered, and what ends the search: nothing is looked at where the way there and
 * the straight rest together cost more than most_cost (UINT64_MAX: no limit), nor after most_polygons polygons (SIZE_MAX: no limit). With `partial` 1 the
 * way to the nearest place is told where none to the goal is found. Distances are squared and added: that in the plane, and the gap between the goal's
 * height and the floors of a polygon, of which each unit counts `rise` sixteenths, 0 to 1024; the goal's height is at most 65535 then. With `partial` 0
 * `rise` is not read. The call leaves what the way costs, or `seen`, the polygons in which it begins and ends, the point where it ends, the least floor
 * of that polygon, and how many links and turns it has. */
typedef struct {
    navd_way way;
    uint64_t areas, most_cost;
    size_t most_polygons;
    uint32_t partial, rise;
    uint64_t cost, seen;
    navd_polygon first, last;
    navd_point end;
    uint32_t end_y;
    size_t links, turns;
} navd_plan;

/* A path that is kept. The host writes where its walker is and its goal, the polygon in which it was last, and the areas that may be entered; the call
 * leaves the polygon in which the path begins now, what the links that lead on cost, and how many links and turns there are. */
typedef struct {
    navd_way way;
    navd_polygon first;
    uint64_t areas, cost;
    size_t links, turns;
} navd_kept;

/* A path that is kept and is to be mended. The host writes where its walker is and its goal, the polygon in which it was last, how many links are kept,
 * how many of them are used at most from the walker on, whether the way comes back to the kept links (`join` 1) or leads straight to the goal (0), after
 * how many polygons the search ends (SIZE_MAX: no limit), and the areas that may be entered. The call leaves the polygon in which the path begins, what it
 * costs, or `seen`, how many of its links are the first of those that were kept, how many behind these were searched for, and how many links and turns
 * there are. */
typedef struct {
    navd_way way;
    navd_polygon first;
    uint32_t join;
    size_t count, keep, most_polygons;
    uint64_t areas, cost, seen;
    size_t kept, bridge, links, turns;
} navd_repair;

/* A flood. The host writes the place from which its walks lead, or with `back` 1 to which they lead, the areas that may be entered, and up to which
 * cost it reaches; the call leaves how many polygons it has. */
typedef struct {
    navd_point at;
    uint32_t y, back;
    uint64_t areas, most_cost;
    size_t polygons;
} navd_flood;

/* A polygon of a flood, what a cheapest walk from the place to it costs, and the place in the array of the polygon before it on such a walk; of a flood
 * back what one from it to the place costs, and the polygon behind it. That of the first is 0. */
typedef struct {
    navd_polygon polygon;
    uint64_t cost;
    size_t via;
} navd_reached;

/* A place to which a way may lead. */
typedef struct {
    navd_point at;
    uint32_t y;
} navd_goal;

/* A question for the nearest of many goals. The host writes the place in which ways begin, the areas that may be entered, and up to which cost ways are
 * looked at (UINT64_MAX: no limit). The call leaves the place of the nearest goal in the array, from 0, what the way there costs, or `seen`, the polygons
 * in which it begins and ends, and how many links it has. */
typedef struct {
    navd_point at;
    uint32_t y;
    uint64_t areas, most_cost;
    size_t which;
    uint64_t cost, seen;
    navd_polygon first, last;
    size_t links;
} navd_nearest;

/* A walker on a kept path. The host writes the polygon in which the path begins, the two ends of its line, how far along that the walker has gone, in
 * sixteenths of a cell along the longer axis of each leg, how many links from where it is on are looked at beside those that it uses, and how many
 * links are behind it. The call leaves how many are behind it then, the polygon and the point where it is, and that polygon's least floor. */
typedef struct {
    navd_polygon first;
    navd_point from, goal;
    uint32_t far, ahead;
    size_t link;
    navd_polygon polygon;
    navd_point at;
    uint32_t y;
} navd_follower;

/* A place on the mesh: a polygon, a point that it holds, and the floor there, in height units. It is the host's own. Once the view shows another mesh,
 * navd_view_is_place tells whether it is still a place. */
typedef struct {
    navd_polygon polygon;
    navd_point at;
    uint32_t y;
} navd_place;

/* What is looked for: allowed areas, bit a for area a (UINT64_MAX: all areas), a point and a height; how far a place may be in the plane, in sixteenths
 * of a cell, below 262144; how far its floor may lie down and up from y, in height units, below 16384; and how far in the plane a height unit counts
 * that is beyond the agent's climb, in sixteenths, below 65536: with the weight 0 the nearest place in the plane is looked for, with
 * 16 * cell height / cell size the nearest in space, and with more than the reach the nearest in height. */
typedef struct {
    uint64_t areas;
    navd_point at;
    uint32_t y, reach, down, up, weight;
} navd_near;

/* What is found of a way between places: what it costs, or what it costs at least (`seen`), and how many links and corners it has. */
typedef struct {
    uint64_t cost, seen;
    size_t links, corners;
} navd_found_way;

/* A way from a place to another. The host writes the two places, the areas that may be entered, and what ends the search: nothing is looked at where
 * the way there and the straight rest together cost more than most_cost (UINT64_MAX: no limit), nor after most_polygons polygons (SIZE_MAX: no limit).
 * The call leaves what it finds. */
typedef struct {
    navd_place from, to;
    uint64_t areas, most_cost;
    size_t most_polygons;
    navd_found_way found;
} navd_place_way;

/* The same between the places that are nearest to two points. */
typedef struct {
    navd_near from, to;
    uint64_t areas, most_cost;
    size_t most_polygons;
    navd_found_way found;
} navd_near_way;

/* Where walls are looked for: around a place, within a reach in sixteenths, below 262144, and over polygons of which areas, bit a for area a. */
typedef struct {
    navd_place from;
    uint32_t reach;
    uint64_t areas;
} navd_around;

/* A wall: a part of an edge of a polygon, edge i from corner i to the next, over which no link leads into an allowed area, as long as it can be. The
 * polygon lies to the left of the way from `begin` to `end`. num / den is the square of how far it is from the place, in sixteenths, not reduced. */
typedef struct {
    navd_polygon polygon;
    navd_point begin, end;
    uint64_t num, den;
    uint32_t edge;
} navd_wall;

/* A point of the plane, or a vector, in 1/256 of a cell: sixteen to a unit of navd_point. */
typedef struct {
    int32_t x, z;
} navd_fine;

/* An agent of a crowd, a disc. It is the host's own: it may be copied, saved and taken out at will. Calls tell where it is: the polygon that holds its
 * middle `at`, with the polygon's floors; `stranded` 1 where none is known. The host writes the rest. `idle` 1: it makes room for all others. `areas`: bit
 * a for area a that it may enter. `radius`, 1 to `full`, `full`, at most 8191, and `speed`, how far it may go in a step, at most 8191, are in 1/256 of a
 * cell. `wish`, by which vector it would like to go, and `left`, how far its goal is, are navd_view_lead's or the host's. What is behind is 0 at first. */
typedef struct {
    navd_polygon polygon;
    navd_fine at;
    uint32_t low, high, stranded, idle;
    uint64_t areas, left;
    uint32_t radius, full, speed, unused;
    navd_fine wish, last, meant;
    uint32_t waited, tired;
} navd_agent;

/* How far the agents of a crowd see, at most 16384 in 1/256 of a cell, how many steps it makes a second, 1 to 1000, and in how many rounds moves are
 * granted, 1 to 64: 3072, 20 and 8, say. */
typedef struct {
    uint32_t sight, hz, rounds;
} navd_crowd;

/* The first line of a text that fails, from 1, and the kind of its fault, as docs/FORMATS.md has them. */
typedef struct {
    uint32_t line, kind;
} navd_fault;

/* How many: entries in the history, entries that the last aim saw, entries that the published mesh shows; tiles; polygons and links of the
 * published mesh. A link leads one way. */
typedef struct {
    uint32_t history, target, published, tiles, polygons, links;
} navd_counts;

/* How many entries a view shows, and how many tiles there are. */
typedef struct {
    uint32_t published, tiles;
} navd_shown;

/* The version of the library: a host that loads it while it runs compares it with NAVD_VERSION. It takes no handle, and may be called at any
 * time. */
uint32_t navd_version(void);

/* == A level == */

/* Opens the level of the field text with which the bytes begin, its line `end` included (docs/FORMATS.md has the lines), with no obstacles,
 * all of it built and published; what stands behind that text is not looked at. A level that the handle held is closed then.
 * NAVD_OK. NAVD_FAULTY: the fault is told, and the handle holds what it held. NAVD_NO_MEMORY: the handle holds what it held. */
uint32_t navd_open(navd_level *level, const uint8_t *text, size_t length, navd_fault *fault);

/* Opens the level of a triangle text, which is all of the bytes: the lines of a field text up to its spans, a line for each triangle, and `end`
 * (docs/FORMATS.md has the lines). The triangles leave spans in the columns exactly as `navd raster` says. A level that the handle held is closed
 * then.
 * NAVD_OK. NAVD_FAULTY: the fault is told. NAVD_TOO_MANY_SPANS. NAVD_NO_MEMORY. In these three the handle holds what it held. */
uint32_t navd_open_triangles(navd_level *level, const uint8_t *text, size_t length, navd_fault *fault);

/* == Levels in a game's own numbers ==
 * Floats are turned into whole numbers by one exact law: each becomes the multiple of a step that is nearest to it, of two the even one. Steps
 * are a sixteenth of a cell along x and z, and a height unit along y, which points up. They are counted from 0 of the game's numbers, so that moving
 * a level's corner moves no grid. A number that is none, infinite, or 2^23 steps or more from 0 is out of its limits. */

/* The frame of these sizes, 2^-10 to 2^10 each, whose field begins in the last whole column that is not behind `low`, at its height, and the
 * columns that reach from there to `high`. The sizes' corner is not read.
 * NAVD_OK. NAVD_OUT_OF_RANGE: no field of 1024 columns a side and 8190 height units holds both. */
uint32_t navd_frame_of(const navd_frame *sizes, const navd_world_point *low, const navd_world_point *high, navd_framed_field *field);

/* Turns points into places of a frame, one after the other; how many were turned is left at `count`.
 * NAVD_OK: all. NAVD_NO_ROOM: there is no room for the next one. NAVD_OUT_OF_RANGE: the next one has no place. In all three `count` were turned. */
uint32_t navd_quantize(const navd_frame *frame, const navd_world_point *points, size_t how_many, navd_frame_place *places, size_t room,
                       size_t *count);

/* Turns places of a frame into points, one after the other, whose numbers are the nearest floats, so that navd_quantize gives the places again; how many
 * were turned is left at `count`.
 * NAVD_OK: all. NAVD_NO_ROOM: there is no room for the next one. NAVD_OUT_OF_RANGE: the next one has no point. In all three `count` were turned. */
uint32_t navd_dequantize(const navd_frame *frame, const navd_frame_place *places, size_t how_many, navd_world_point *points, size_t room,
                         size_t *count);

/* Opens the level of a mesh: three numbers of `vertices` a vertex, three of `corners` a triangle, and one of `areas` a triangle, or none at all:
 * 63 each. A triangle keeps its area where somebody can walk on it, and has 0 elsewhere; its upper side is up where (b - a) x (c - a) is. What stands
 * upright on a line between columns counts for the column behind it. Each area costs 1. A level that the handle held is closed then.
 * NAVD_OK. NAVD_FAULTY: the first triangle that fails is told. NAVD_OUT_OF_RANGE: the mesh, or the lengths of the arrays.
 * NAVD_TOO_MANY_SPANS. NAVD_NO_MEMORY. In these four the handle holds what it held. */
uint32_t navd_open_mesh(navd_level *level, const navd_mesh *mesh, const float *vertices, size_t numbers, const uint32_t *corners, size_t count,
                        const uint8_t *areas, size_t area_count, navd_mesh_fault *fault);

/* Closes the level, if the handle holds one; the handle holds nothing then. */
void navd_close(navd_level *level);

/* == Requests ==
 * Each makes one entry in the history, whose number, from 1, is left at `entry`; 0 where none was made. What is published stays. */

/* Adds an obstacle. With the area 0 it stops agents, which keep their radius from it where the field text says `clear 1`; with an area, 1 to 63,
 * it gives that area to the cells that it covers. Its number is that of the entry.
 * NAVD_OK. NAVD_TOO_MANY. NAVD_OUT_OF_RANGE: before all others. NAVD_EMPTY. NAVD_HISTORY_FULL. */
uint32_t navd_add_block(navd_level *level, const navd_block *block, uint32_t area, uint32_t *entry);
uint32_t navd_add_cylinder(navd_level *level, const navd_cylinder *cylinder, uint32_t area, uint32_t *entry);
uint32_t navd_add_prism(navd_level *level, const navd_prism *prism, uint32_t area, uint32_t *entry);
uint32_t navd_add_disc(navd_level *level, const navd_disc *disc, uint32_t area, uint32_t *entry);

/* Removes the obstacle with a number.
 * NAVD_OK. NAVD_DEAD. NAVD_EMPTY. NAVD_HISTORY_FULL. */
uint32_t navd_remove(navd_level *level, uint32_t number, uint32_t *entry);

/* == Building == */

/* Builds all that the history asks for and publishes it; how many entries that are is left at `published`. All claims of jobs are ended.
 * NAVD_OK. NAVD_EMPTY. NAVD_NO_MEMORY: what is published, and the history, are as they were; the whole history may be the target, and some of
 * its tiles built, and another navd_settle or navd_step builds on from there (tested). */
uint32_t navd_settle(navd_level *level, uint32_t *published);

/* Makes the whole history the target, up to which tiles are built from now on; its length is left at `target`.
 * NAVD_OK. NAVD_EMPTY. */
uint32_t navd_aim(navd_level *level, uint32_t *target);

/* Builds the least tile that is awaited for the target and not claimed; its number is left at `tile`.
 * NAVD_OK. NAVD_SAME: there is no such tile. NAVD_EMPTY. NAVD_NO_MEMORY: nothing was done. */
uint32_t navd_step(navd_level *level, uint32_t *tile);

/* Publishes the target, once no tile is awaited. At `number` is left how many entries are published now.
 * NAVD_OK. NAVD_SAME: the target was published before. NAVD_NOT_YET: at `number` is left the least tile that is awaited. NAVD_EMPTY.
 * NAVD_NO_MEMORY: only where the target is to be published; nothing was done. */
uint32_t navd_publish(navd_level *level, uint32_t *number);

/* Begins the history again, where all of it is published: it has one entry then for each obstacle that is alive, in the order of their numbers,
 * and so the number of each is from then on its place in the list of the numbers that they had, from 1. That list is laid into `numbers`, and
 * how many there are is left at `count`: never more than the field text's limit (tested). The published mesh is the same. A host that runs for
 * long does this before its history is full.
 * NAVD_OK. NAVD_NOT_YET: not all of the history is published. NAVD_NO_ROOM: only `count` was left. NAVD_EMPTY. NAVD_NO_MEMORY. */
uint32_t navd_renew(navd_level *level, uint32_t *numbers, size_t room, size_t *count);

/* The tiles that may differ between a length of the history and what is published, by rising numbers; how many there are is left at `count`. They
 * are those that an obstacle touches which is alive after exactly one of the two; one that came and went in between is not told. Each other tile
 * has the polygons and links that it had, and so have the links between two such tiles. `since` is a length that navd_settle or navd_publish left,
 * or any other up to what is published, since the last navd_renew.
 * NAVD_OK. NAVD_OUT_OF_RANGE: not so much is published. NAVD_EMPTY. NAVD_NO_MEMORY. */
uint32_t navd_changed_tiles(navd_level *level, uint32_t since, uint32_t *tiles, size_t room, size_t *count);

/* == Jobs ==
 * Worker threads of the host build tiles beside whoever changes the level: a job is claimed (a call of both handles), built from its own handle
 * alone, as long as it likes, and handed in or put back (calls of both handles). A tile that is claimed is given to no other claim, and navd_step
 * passes it by, until a job of that tile is handed in or put back, whichever claim it is of, or navd_settle, navd_renew or navd_put_back_all ends
 * all claims; then a job may still be handed in. A job may be built, handed in elsewhere and closed after its level was closed. Of a registry and
 * of kinds they are claimed by calls of their own, navd_registry_claim, navd_kinds_claim and those below them. */

/* Claims the least tile that is awaited and not claimed; the job's handle holds the job then, and its tile is left at `tile`.
 * NAVD_OK. NAVD_EMPTY, before all others: the level's handle holds none. NAVD_BUSY, before the next. NAVD_SAME: there is no such tile.
 * NAVD_NO_MEMORY: nothing was done. */
uint32_t navd_claim(navd_level *level, navd_job *job, uint32_t *tile);

/* Builds a job's tile.
 * NAVD_OK. NAVD_SAME: it was built before. NAVD_EMPTY. NAVD_NO_MEMORY: nothing was done. */
uint32_t navd_build(navd_job *job);

/* Hands a job in that is built; the job's handle holds nothing then.
 * NAVD_OK: it is taken, and published with the next publish if no aim changes which obstacles touch the tile. NAVD_STALE: its tile is not awaited, or
 * was built under other obstacles than touch it at the target. With the next, the job stays: NAVD_EMPTY: one of the handles holds nothing.
 * NAVD_FOREIGN, before NAVD_NOT_YET: the level has another setting, or another ground in the tile or near it. NAVD_NOT_YET: it is not built. */
uint32_t navd_submit(navd_level *level, navd_job *job);

/* Puts a job back; the job's handle holds nothing then.
 * NAVD_OK. NAVD_FOREIGN, NAVD_EMPTY: as above. */
uint32_t navd_put_back(navd_level *level, navd_job *job);

/* Ends all claims of a level.
 * NAVD_OK. NAVD_EMPTY. */
uint32_t navd_put_back_all(navd_level *level);

/* Closes the job, if the handle holds one; the handle holds nothing then, and the tile stays claimed. */
void navd_job_close(navd_job *job);

/* == A registry: obstacles by ids that stay ==
 * A registry is a level with a row for each of its obstacles. An obstacle keeps its id when it is moved, switched off and on, and an id is given once. A
 * call makes the entries of the level's history that it takes: a switch one, a move two, which are aimed at together, so that no version shows half of
 * it. What is refused makes none. What is shown changes in navd_registry_update alone. */

/* Begins the registry of a level without obstacles, with the version 0: the level goes over into it, and the level's handle holds nothing then. A registry
 * that the handle held is closed then.
 * NAVD_OK. NAVD_EMPTY: the level's handle holds none. NAVD_BUSY: obstacles of the level are alive. NAVD_NO_MEMORY. In these three nothing was done. */
uint32_t navd_registry_begin(navd_registry *registry, navd_level *level);

/* Closes the registry with its level, if the handle holds one; the handle holds nothing then. Views and jobs of it stay good. */
void navd_registry_close(navd_registry *registry);

/* Adds an obstacle, which is on, with a number of the host's own that means nothing here; its id is left at `id`, which is one more than the last.
 * NAVD_OK. NAVD_OUT_OF_RANGE: before all others. NAVD_EMPTY. NAVD_TOO_MANY: as many obstacles are on as the field text's limit says, there are 65536, or
 * 2^64 - 1 ids were given. NAVD_HISTORY_FULL: the history may not have two entries more. NAVD_NO_MEMORY. */
uint32_t navd_registry_add(navd_registry *registry, const navd_solid *solid, uint64_t user, uint64_t *id);

/* Gives an obstacle, on or off, another shape.
 * NAVD_OK. NAVD_OUT_OF_RANGE: before all others. NAVD_EMPTY. NAVD_NO_OBSTACLE. NAVD_HISTORY_FULL: it is on, and the history may not have two more. */
uint32_t navd_registry_move(navd_registry *registry, uint64_t id, const navd_solid *solid);

/* Switches an obstacle on, or off where `enabled` is 0.
 * NAVD_OK. NAVD_EMPTY. NAVD_NO_OBSTACLE. NAVD_SAME: it was so before. NAVD_TOO_MANY: as many are on as the field text's limit says. NAVD_HISTORY_FULL. */
uint32_t navd_registry_enable(navd_registry *registry, uint64_t id, uint32_t enabled);

/* Gives an obstacle another number of the host's own.
 * NAVD_OK. NAVD_EMPTY. NAVD_NO_OBSTACLE. */
uint32_t navd_registry_mark(navd_registry *registry, uint64_t id, uint64_t user);

/* Removes an obstacle; its id is not given again.
 * NAVD_OK. NAVD_EMPTY. NAVD_NO_OBSTACLE. NAVD_HISTORY_FULL: it is on, and the history may not have two more. */
uint32_t navd_registry_remove(navd_registry *registry, uint64_t id);

/* The obstacles, by rising ids; how many there are is left at `count`.
 * NAVD_OK. NAVD_EMPTY. */
uint32_t navd_registry_rows(navd_registry *registry, navd_row *rows, size_t room, size_t *count);

/* Aims at all that was asked for, unless what was aimed at before is not shown yet; builds at most so many tiles; and shows it, once none is awaited. So
 * each update of a game's frame ends soon, and what was aimed at comes to be shown. Where all of the history is shown then and it has 131072 entries,
 * it begins again by itself, as navd_renew does: ids, rows, the version and what is shown stay.
 * NAVD_OK. NAVD_EMPTY. NAVD_TOO_MANY: 2^64 - 1 versions were shown; nothing was done. NAVD_NO_MEMORY: some of the tiles were built; the obstacles, the
 * version and what is shown are as they were, and another update builds on from there. */
uint32_t navd_registry_update(navd_registry *registry, uint32_t most, navd_updated *updated);

/* Jobs of a registry: each call is that of a level with a registry in its place, and ends as that one does; the obstacles, their ids and the version stay.
 * A host's frame makes an update of 0 tiles, which aims at what was asked for, and shows what was aimed at before once its jobs were handed in; an
 * update of more tiles builds others beside them. Where a history begins again all claims are ended. */
uint32_t navd_registry_claim(navd_registry *registry, navd_job *job, uint32_t *tile);
uint32_t navd_registry_submit(navd_registry *registry, navd_job *job);
uint32_t navd_registry_put_back(navd_registry *registry, navd_job *job);
uint32_t navd_registry_put_back_all(navd_registry *registry);

/* Brings a view up to what the registry shows, as navd_look does; the version is left at `version`.
 * NAVD_OK. NAVD_EMPTY: the registry's handle holds none. NAVD_NO_MEMORY: the view shows what it showed. */
uint32_t navd_registry_look(navd_view *view, navd_registry *registry, uint64_t *version);

/* Lays what is saved of a registry into `bytes`, if there is room for all of it; how many bytes it has is left at `length`: 48, and 84 for each obstacle,
 * and 4 for each that is on (tested). Saved are the ids, the user's numbers and the shapes of the obstacles, which are on and in which order they were put
 * up, the last id, the version, and width, depth, tile and limit of the field text. The same registry has the same bytes on every machine.
 * NAVD_OK. NAVD_NO_ROOM: only `length` was left. NAVD_EMPTY. NAVD_NO_MEMORY. */
uint32_t navd_registry_save(navd_registry *registry, uint8_t *bytes, size_t room, size_t *length);

/* Puts the obstacles that were saved in the place of all others, as they were then: by their ids, on or off, put up in the order of then. The last id and
 * the version are the greater ones of both, and the version one more, so that neither comes again. The history has an entry more for each obstacle that was on
 * and for each that is; what is shown stays until navd_registry_update, which builds the tiles alone that differ.
 * NAVD_OK. NAVD_EMPTY. NAVD_NOT_SAVED: no save wrote these bytes. NAVD_FOREIGN: it was saved of another width, depth, tile or limit. NAVD_TOO_MANY:
 * 2^64 - 1 versions were shown. NAVD_HISTORY_FULL: the history may not have so many more. NAVD_NO_MEMORY. */
uint32_t navd_registry_restore(navd_registry *registry, const uint8_t *bytes, size_t length);

/* == Kinds: levels of several kinds of agents over one ground, with one history ==
 * Each request is one entry of all kinds, and a publish shows it in all of them or in none. A kind is named by its place among those that were opened,
 * from 0. Its mesh is that of a level opened for it alone, with the same requests. Questions are asked of views, each of one kind. */

/* Opens 1 to 16 kinds over spans, by z, then x, then from the bottom up, which do not overlap, with no obstacles, all built and published. `costs` are 64
 * numbers by area, each 1 to 1000, for all kinds; where there are 0 of them, each area costs 1. Kinds that the handle held are closed then.
 * NAVD_OK. NAVD_OUT_OF_RANGE: before all others: a number, or the order of the spans. NAVD_TOO_MANY_SPANS. NAVD_NO_MEMORY. In these three the handle holds
 * what it held. */
uint32_t navd_kinds_open(navd_kinds *kinds, const navd_ground *ground, const navd_kind *kind, size_t count, const uint32_t *costs, size_t costs_count,
                         const navd_span *spans, size_t spans_count);

/* Closes the kinds, if the handle holds some; the handle holds nothing then. Views of them stay good. */
void navd_kinds_close(navd_kinds *kinds);

/* Requests, steps and a renewal: each is that of a level with kinds in its place, for all kinds at once, and ends as that one does. */
uint32_t navd_kinds_add_block(navd_kinds *kinds, const navd_block *block, uint32_t area, uint32_t *entry);
uint32_t navd_kinds_add_cylinder(navd_kinds *kinds, const navd_cylinder *cylinder, uint32_t area, uint32_t *entry);
uint32_t navd_kinds_add_prism(navd_kinds *kinds, const navd_prism *prism, uint32_t area, uint32_t *entry);
uint32_t navd_kinds_add_disc(navd_kinds *kinds, const navd_disc *disc, uint32_t area, uint32_t *entry);
uint32_t navd_kinds_remove(navd_kinds *kinds, uint32_t number, uint32_t *entry);
uint32_t navd_kinds_settle(navd_kinds *kinds, uint32_t *published);
uint32_t navd_kinds_aim(navd_kinds *kinds, uint32_t *target);
uint32_t navd_kinds_renew(navd_kinds *kinds, uint32_t *numbers, size_t room, size_t *count);

/* Builds the least tile that is awaited and not claimed in the least kind that has one; both are left at `kind` and `tile`.
 * NAVD_OK. NAVD_SAME: there is no such tile. NAVD_EMPTY. NAVD_NO_MEMORY: nothing was done. */
uint32_t navd_kinds_step(navd_kinds *kinds, uint32_t *kind, uint32_t *tile);

/* Publishes the target in all kinds, once no tile is awaited in any. At `number` is left how many entries are published now.
 * NAVD_OK. NAVD_SAME: the target was published before. NAVD_NOT_YET: the least kind in which a tile is awaited is left at `kind`, and that tile at
 * `number`. NAVD_EMPTY. NAVD_NO_MEMORY: only where the target is to be published; nothing was done in any kind. */
uint32_t navd_kinds_publish(navd_kinds *kinds, uint32_t *kind, uint32_t *number);

/* Changes the ground of all kinds: other spans stand in the columns of a rectangle, in the order of navd_kinds_open, and none where `count` is 0. The tiles
 * within an agent's radius and two columns of it are built; then each kind shows what it would show had it been opened over the changed ground, with the
 * entries that are published. No tile is claimed then, and a job claimed before is NAVD_FOREIGN where its tile's cells changed. So a level streams:
 * opened without spans, it gets a block's as it comes, and none as it goes; who asks near the rim of what is loaded loads a tile more.
 * NAVD_OK. NAVD_EMPTY. NAVD_OUT_OF_RANGE: the rectangle runs backwards or leaves the ground, or a span leaves it, or a number or the order of the spans.
 * NAVD_TOO_MANY_SPANS: more than 2000000 then. NAVD_NOT_YET: not all that was aimed at is published. NAVD_NO_MEMORY: in place of either too. In these
 * nothing was done. Memory: 10 bytes for each span of the ground while it is held, and as many more while it changes. */
uint32_t navd_kinds_change_ground(navd_kinds *kinds, const navd_columns *columns, const navd_span *spans, size_t count);

/* Jobs of kinds: each call is that of a level with kinds in its place. A claim gives the least tile of the least kind that has one, and leaves that kind at
 * `kind`; the job is handed in or put back to it. To another kind it is NAVD_FOREIGN, but where the two are alike in all numbers.
 * As of a level. NAVD_OUT_OF_RANGE, before NAVD_FOREIGN: there is no such kind. */
uint32_t navd_kinds_claim(navd_kinds *kinds, navd_job *job, uint32_t *kind, uint32_t *tile);
uint32_t navd_kinds_submit(navd_kinds *kinds, uint32_t kind, navd_job *job);
uint32_t navd_kinds_put_back(navd_kinds *kinds, uint32_t kind, navd_job *job);
uint32_t navd_kinds_put_back_all(navd_kinds *kinds);

/* The counts of a kind.
 * NAVD_OK. NAVD_EMPTY. NAVD_OUT_OF_RANGE: there is no such kind. */
uint32_t navd_kinds_count(navd_kinds *kinds, uint32_t kind, navd_counts *counts);

/* Brings a view up to what a kind shows, as navd_look does; how many entries that are is left at `published`.
 * NAVD_OK. NAVD_EMPTY: the kinds' handle holds none. NAVD_OUT_OF_RANGE: there is no such kind. NAVD_NO_MEMORY: the view shows what it showed. */
uint32_t navd_kinds_look(navd_view *view, navd_kinds *kinds, uint32_t kind, uint32_t *published);

/* == Questions, which are answered from what is published ==
 * They change nothing. */

/* The floors of the free cells of a column, from the bottom up; how many there are is left at `count`.
 * NAVD_OK. NAVD_EMPTY. NAVD_NO_MEMORY. */
uint32_t navd_floors(navd_level *level, uint32_t x, uint32_t z, navd_floor *floors, size_t room, size_t *count);

/* For a host that asks a level for many paths: makes landmarks of what is published, where there are none yet. That takes about as much time as
 * thirty paths, and 32 bytes a polygon; later paths take about a fifth. A publish keeps them where it can; else there are none. A view that
 * is opened or brought up to date after that has them too, but one with costs of its own.
 * So far all is measured and not proved. What is asked is answered rightly either way; of several corridors that cost the same another one may
 * be told.
 * NAVD_OK. NAVD_EMPTY. NAVD_NO_MEMORY. */
uint32_t navd_prepare(navd_level *level);

/* A cheapest corridor and a taut path through it: what it costs, its links in order, and where it turns.
 * NAVD_OK. NAVD_NO_START, NAVD_NO_GOAL, NAVD_NO_PATH: there is none. NAVD_OUT_OF_RANGE: before all others. NAVD_EMPTY. NAVD_NO_MEMORY. */
uint32_t navd_find_path(navd_level *level, const navd_way *way, navd_link *links, size_t links_room, navd_turn *turns, size_t turns_room,
                        navd_path *path);

/* The straight walk from a place toward a point.
 * NAVD_OK: it reaches the point. NAVD_WALL: it ends at an edge. NAVD_NO_START. NAVD_OUT_OF_RANGE: before all others. NAVD_EMPTY.
 * NAVD_NO_MEMORY. */
uint32_t navd_cast_ray(navd_level *level, const navd_way *way, navd_ray *ray);

/* A cheapest walk over links and jumps from hop->way.from to hop->way.to, and taut lines between its jumps. A jump is taken where its two points are
 * held by polygons. There are at most 256 jumps, and their points are in the limits of ways; what `hop` says besides, and the two arrays, are left
 * as for a path: hop->steps and hop->turns tell how many there are. A turn's `link` is its place among all steps, jumps counted.
 * NAVD_OK. NAVD_NO_START, NAVD_NO_GOAL, NAVD_NO_PATH: there is none. NAVD_OUT_OF_RANGE: before all others. NAVD_EMPTY. NAVD_NO_MEMORY. */
uint32_t navd_find_hop(navd_level *level, navd_hop *hop, const navd_jump *jumps, size_t count, navd_step_taken *steps, size_t steps_room,
                       navd_turn *turns, size_t turns_room);

/* Places a walker at way->from, on its way to way->to. The links of its way are laid into `links`, and walker->links tells how many there are.
 * NAVD_OK. NAVD_NO_START, NAVD_NO_GOAL, NAVD_NO_PATH: there is no way. NAVD_OUT_OF_RANGE: before all others. NAVD_EMPTY. NAVD_NO_MEMORY. */
uint32_t navd_send(navd_level *level, const navd_way *way, navd_link *links, size_t room, navd_walker *walker);

/* Moves a walker toward its goal by up to `length`, in sixteenths of a cell along the longer axis of each leg, on a cheapest way in the mesh as it is
 * published now; of the walker, its point, its height, its goal and the goal's height are read. After the call it stands in a polygon that holds
 * its point, and its links lead on to the goal.
 * NAVD_OK. NAVD_NO_START: no polygon holds it any more. NAVD_NO_GOAL, NAVD_NO_PATH. NAVD_OUT_OF_RANGE: before all others. NAVD_EMPTY.
 * NAVD_NO_MEMORY. In all but the first the walker is as it was. */
uint32_t navd_march(navd_level *level, navd_walker *walker, uint32_t length, navd_link *links, size_t room);

/* == What there is, to draw it ==
 * Tiles are numbered row by row, from 0 up to below the count of tiles. These calls change nothing. */

/* The polygons of a tile, in the order of their places; how many there are is left at `count`.
 * NAVD_OK. NAVD_OUT_OF_RANGE: there is no such tile. NAVD_EMPTY. */
uint32_t navd_polygons(navd_level *level, uint32_t tile, navd_face *polygons, size_t room, size_t *count);

/* The links between polygons of a tile, and those that lead from it to other tiles, each by the polygons that they leave.
 * NAVD_OK. NAVD_OUT_OF_RANGE: there is no such tile. NAVD_EMPTY. */
uint32_t navd_inner_links(navd_level *level, uint32_t tile, navd_link *links, size_t room, size_t *count);
uint32_t navd_border_links(navd_level *level, uint32_t tile, navd_link *links, size_t room, size_t *count);

/* The obstacles that are alive after the whole history, whether that is published or not, by rising numbers.
 * NAVD_OK. NAVD_EMPTY. NAVD_NO_MEMORY. */
uint32_t navd_obstacles(navd_level *level, navd_obstacle *obstacles, size_t room, size_t *count);

/* The counts of a level.
 * NAVD_OK. NAVD_EMPTY. */
uint32_t navd_count(navd_level *level, navd_counts *counts);

/* == Views == */

/* Brings a view up to what the level has published now; how many entries that are is left at `published`. What the view showed is let go. Where the
 * view has costs of its own it keeps them, and the call goes over the tiles; else the mesh is shared.
 * NAVD_OK. NAVD_EMPTY: the level's handle holds none. NAVD_NO_MEMORY: the view shows what it showed. */
uint32_t navd_look(navd_view *view, navd_level *level, uint32_t *published);

/* Brings the view `to` to what `from` shows, with the costs of its own that `from` has, for another thread, which so wants neither the level nor a lock
 * round it. The mesh is shared. What `to` showed is let go.
 * NAVD_OK. NAVD_EMPTY: `from` holds none. NAVD_NO_MEMORY. In these two `to` shows what it showed. */
uint32_t navd_view_copy(navd_view *to, navd_view *from);

/* Closes the view, if the handle holds one; the handle holds nothing then. A view may be closed after its level. */
void navd_view_close(navd_view *view);

/* Gives a view costs of its own: what a sixteenth of a cell costs in each area, 64 numbers by the area's number, each 1 to 1000 (that of the area 0 means
 * nothing). From then on its questions are answered with these in place of the level's, also after it was brought up; another call gives it others,
 * and a view that was closed has none. So one mesh serves many kinds of agent, each with a view of its own.
 * NAVD_OK. NAVD_OUT_OF_RANGE: before all others. NAVD_EMPTY: the handle holds no view. NAVD_NO_MEMORY: it has the costs that it had. */
uint32_t navd_view_set_costs(navd_view *view, const uint32_t *costs, size_t count);

/* What the view shows.
 * NAVD_OK. NAVD_EMPTY. */
uint32_t navd_view_count(navd_view *view, navd_shown *shown);

/* The questions of a level, asked of what the view shows; NAVD_EMPTY: the handle holds no view. */
uint32_t navd_view_floors(navd_view *view, uint32_t x, uint32_t z, navd_floor *floors, size_t room, size_t *count);
uint32_t navd_view_find_path(navd_view *view, const navd_way *way, navd_link *links, size_t links_room, navd_turn *turns, size_t turns_room,
                             navd_path *path);
/* A line between two places, by its length, with its links, and the turns of a taut line through their portals.
 * NAVD_OK: no line is shorter by more than a 256th of a cell, or by more than one part in 16384. NAVD_ABOUT: a line may be. NAVD_NO_START, NAVD_NO_GOAL,
 * NAVD_NO_PATH: nothing is told. NAVD_OUT_OF_RANGE: before all others. NAVD_EMPTY. NAVD_NO_MEMORY. */
uint32_t navd_view_shortest(navd_view *view, navd_line *line, navd_link *links, size_t links_room, navd_turn *turns, size_t turns_room);
uint32_t navd_view_cast_ray(navd_view *view, const navd_way *way, navd_ray *ray);
uint32_t navd_view_find_hop(navd_view *view, navd_hop *hop, const navd_jump *jumps, size_t count, navd_step_taken *steps, size_t steps_room,
                            navd_turn *turns, size_t turns_room);
uint32_t navd_view_send(navd_view *view, const navd_way *way, navd_link *links, size_t room, navd_walker *walker);
uint32_t navd_view_march(navd_view *view, navd_walker *walker, uint32_t length, navd_link *links, size_t room);
uint32_t navd_view_polygons(navd_view *view, uint32_t tile, navd_face *polygons, size_t room, size_t *count);
uint32_t navd_view_inner_links(navd_view *view, uint32_t tile, navd_link *links, size_t room, size_t *count);
uint32_t navd_view_border_links(navd_view *view, uint32_t tile, navd_link *links, size_t room, size_t *count);

/* == Further questions about ways, asked of what a view shows ==
 * They change nothing. Each is asked through a filter: polygons of area a are entered where bit a of `areas` is set (UINT64_MAX: all areas); the
 * polygon in which one stands is not entered, whatever its area is. `costs` are 64 numbers by area, each 1 to 1000, for this question alone;
 * where there are 0 of them, the costs are those of the view. */

/* A cheapest walk through a filter and a taut line through its portals, told as a path is. With all areas, no costs, no limits and plan->partial 0 its
 * cost, its first polygon and the way in which the call ends are those of navd_view_find_path.
 * NAVD_OK: plan->end is the goal. NAVD_NO_START. With plan->partial 1: NAVD_PARTIAL: the way is a cheapest one to plan->end, the point of plan->last
 * that is nearest to the goal, of equally near ones the first by x, then z. No place is nearer of those to which a walk leads through the filter that
 * costs, with the straight rest, less than plan->seen (UINT64_MAX: of all), and none as near costs less; where no walk may end at the goal the rest is
 * 0. Each walk that leads to the goal through the filter costs at least plan->seen. With plan->partial 0: NAVD_LIMIT: each walk that leads there
 * through the filter costs at least plan->seen, which alone is told. NAVD_NO_GOAL. NAVD_NO_PATH: no walk leads there through the filter.
 * With both: NAVD_OUT_OF_RANGE: before all others. NAVD_EMPTY. NAVD_NO_MEMORY. */
uint32_t navd_view_plan(navd_view *view, navd_plan *plan, const uint32_t *costs, size_t costs_count, navd_link *links, size_t links_room,
                        navd_turn *turns, size_t turns_room);

/* Whether a path still leads on, without a search. links[0] to links[count - 1] are its links from the walker on, fewer than 4294967295, as they were
 * told. Each leads on by a link through its portal, and as itself where that is there still. It begins in kept->first where that polygon holds the
 * place and has a link through the first portal, else in that of those which do that is nearest in height, the first of them by tile and place. The
 * links that lead on now are laid over the first of `links`, and kept->links tells how many they are.
 * NAVD_OK: all do, into a polygon that holds the goal; the turns are those of a taut line from the walker to the goal. Cheaper ways may be there.
 * NAVD_CUT: those do, and no turn is told; where they are all, the goal has left the last polygon. NAVD_NO_START: it begins in no polygon.
 * NAVD_OUT_OF_RANGE: before all others. NAVD_EMPTY. NAVD_NO_MEMORY. In all but the first two nothing is told. */
uint32_t navd_view_check_path(navd_view *view, navd_kept *kept, const uint32_t *costs, size_t costs_count, navd_link *links, size_t count,
                              navd_turn *turns, size_t turns_room);

/* The same, made whole by a search. repair->count links are kept, fewer than 4286967295, and `links` has room for as many at least. Of the links as
 * which they lead on at most the first repair->keep are used, then a cheapest walk through the filter that leads to a polygon which holds the goal; or
 * with repair->join 1, where some of the last links still lead to the goal as they were kept, a cheapest walk to where these begin. What the path
 * enters twice is left out. So with repair->keep 0 and repair->join 0 no way is cheaper, and else one may be. The links of the path are laid over
 * `links`: repair->kept of those that were kept, repair->bridge new ones, and the last ones that were kept.
 * NAVD_OK. NAVD_NO_ROOM: there is too little room for the links or the turns; none was laid, `links` are as they were, and repair->links and
 * repair->turns tell how many there are. NAVD_LIMIT: each walk through the filter that mends it costs at least repair->seen, which alone is told.
 * NAVD_NO_START, as above. NAVD_NO_GOAL: no polygon holds the goal. NAVD_NO_PATH: no walk through the filter mends it. NAVD_OUT_OF_RANGE: before all
 * others. NAVD_EMPTY. NAVD_NO_MEMORY. */
uint32_t navd_view_repair_path(navd_view *view, navd_repair *repair, const uint32_t *costs, size_t costs_count, navd_link *links, size_t links_room,
                               navd_turn *turns, size_t turns_room);

/* The polygons to which an allowed walk leads from the place that costs at most flood->most_cost, or with flood->back 1 those from which one leads to the
 * place, each once, by rising costs; the first is that of the place.
 * NAVD_OK. NAVD_NO_START: no polygon holds the place. NAVD_OUT_OF_RANGE: before all others. NAVD_EMPTY. NAVD_NO_MEMORY. */
uint32_t navd_view_flood(navd_view *view, navd_flood *flood, const uint32_t *costs, size_t costs_count, navd_reached *reached, size_t room);

/* The nearest of many goals: no allowed walk to any of them costs less than that to this one, of which the links are laid into `links`. With one goal, no
 * costs and all areas its cost is that of navd_view_find_path.
 * NAVD_OK. NAVD_LIMIT: each allowed walk to a goal costs at least nearest->seen, which alone is told and is more than most_cost. NAVD_NO_START.
 * NAVD_NO_GOAL: no polygon holds any of the goals. NAVD_NO_PATH: no allowed walk leads to any of them. NAVD_OUT_OF_RANGE: before all others.
 * NAVD_EMPTY. NAVD_NO_MEMORY. */
uint32_t navd_view_nearest_goal(navd_view *view, navd_nearest *nearest, const uint32_t *costs, size_t costs_count, const navd_goal *goals,
                                size_t count, navd_link *links, size_t room);

/* Where a walker on a path is that has gone so far along its line, without a search and through no filter. `links` and `turns` are those of the path as
 * they were told: fewer than 4294967295 links, and each turn names one of them. Those on the way to the next turn, or the goal, are looked at, and
 * follower->ahead of those from where it is on.
 * NAVD_OK: all of these are links of the mesh still, one behind the other; where they are all that are left, the last polygon holds the goal.
 * NAVD_CUT: follower->link, which alone is told, is the place of the first that is not, or where it is the count of all, the goal has left the last
 * polygon. NAVD_NO_START: the polygon of the last turn that it passed, or of the line's beginning, does not hold that point, nor does another on the
 * way hold one that it reaches. NAVD_OUT_OF_RANGE: before all others. NAVD_EMPTY. NAVD_NO_MEMORY. */
uint32_t navd_view_follow_path(navd_view *view, navd_follower *follower, const navd_link *links, size_t count, const navd_turn *turns,
                               size_t turns_count);

/* == Questions about places, asked of what a view shows ==
 * They change nothing. The floor of a polygon at a point that it holds is that of the polygon's cell there; where the polygon strays off its cells, that
 * of the nearest of them. On a border of cells each of their floors makes a place. */

/* The nearest place of those in reach that have a cell of their polygon below the point. Distances are squared and added: that in the plane, and what
 * the floor is further from y than the agent climbs, times the weight. Where two are alike the one comes first whose floor is nearer to y, then by tile,
 * index, x, z and floor. Walls do not count.
 * NAVD_OK. NAVD_NO_PLACE: none is in reach. NAVD_OUT_OF_RANGE: before all others. NAVD_EMPTY. NAVD_NO_MEMORY. */
uint32_t navd_view_nearest(navd_view *view, const navd_near *near, navd_place *place);

/* The highest floor at place->at in place->polygon, left at place->y, whatever that was.
 * NAVD_OK. NAVD_NO_PLACE: the polygon does not hold the point, or there is none. NAVD_OUT_OF_RANGE: before all others. NAVD_EMPTY. NAVD_NO_MEMORY. */
uint32_t navd_view_height(navd_view *view, navd_place *place);

/* Whether it is a place of what the view shows.
 * NAVD_OK: it is. NAVD_NO_PLACE. NAVD_OUT_OF_RANGE: before all others. NAVD_EMPTY. NAVD_NO_MEMORY. */
uint32_t navd_view_is_place(navd_view *view, const navd_place *place);

/* The place that a number draws: the middle of a cell whose area is allowed, bit a for area a (UINT64_MAX: all areas), on its floor, in the first polygon
 * of those that were made of the cell and hold its middle. Of n cells it is the one with the number draw * n / 2^64, rounded down, tile by tile: numbers
 * that are as likely as each other make the cells so. It is a place of what the view shows.
 * NAVD_OK. NAVD_CUT: no polygon holds the middle; another number is to be drawn. NAVD_NO_PLACE: no cell has an allowed area. NAVD_EMPTY.
 * NAVD_NO_MEMORY. */
uint32_t navd_view_random_place(navd_view *view, uint64_t areas, uint64_t draw, navd_place *place);

/* A cheapest walk from the polygon of way->from to that of way->to through a filter, which is that of navd_view_plan, and a taut line through its portals:
 * corners[0] is way->from, the last corner is way->to, and each between them is a turn, in the polygon that the link enters round whose portal it
 * turns, on the highest floor there. No polygon is looked for anew, so a way never begins or ends on another storey than its place.
 * NAVD_OK. NAVD_LIMIT: each walk through the filter that joins the two costs at least way->found.seen, which alone is told. NAVD_NO_START, NAVD_NO_GOAL: it
 * is no place of what the view shows. NAVD_NO_PATH: no walk joins the two through the filter. NAVD_OUT_OF_RANGE: before all others. NAVD_EMPTY.
 * NAVD_NO_MEMORY. */
uint32_t navd_view_find_way(navd_view *view, navd_place_way *way, const uint32_t *costs, size_t costs_count, navd_link *links, size_t links_room,
                            navd_place *corners, size_t corners_room);

/* The same between the places that navd_view_nearest tells of way->from and of way->to, which are the first corner and the last; way->areas are those of
 * the walk. All of it is answered in one mesh.
 * NAVD_OK. NAVD_NO_START, NAVD_NO_GOAL: no place is in reach of it. NAVD_LIMIT, NAVD_NO_PATH, as above. NAVD_OUT_OF_RANGE: before all others. NAVD_EMPTY.
 * NAVD_NO_MEMORY. */
uint32_t navd_view_find_way_near(navd_view *view, navd_near_way *way, const uint32_t *costs, size_t costs_count, navd_link *links, size_t links_room,
                                 navd_place *corners, size_t corners_room);

/* The straight walk from a place, in whose polygon it begins, toward a point; it ends as that of navd_view_cast_ray.
 * NAVD_OK. NAVD_WALL. NAVD_NO_START: `from` is no place of what the view shows. NAVD_OUT_OF_RANGE: before all others. NAVD_EMPTY. NAVD_NO_MEMORY. */
uint32_t navd_view_cast_ray_from(navd_view *view, const navd_place *from, const navd_point *to, navd_ray *ray);

/* Moves from a place toward a point along walls, for steps of a cell or so. Polygons are looked at to which links lead from that of `from` into allowed
 * areas, bit a for area a (UINT64_MAX: all areas), through portals that touch the disc whose diameter is the way from `from` to `to`. Of the points that
 * these hold and that are no farther from `from` than `to` is, none is nearer to `to` than that of `end`, which is in one of them, on the highest floor
 * there. So it is no farther from `to` than `from` is. Points are whole: who moves less than a sixteenth a step stands still, unless the host keeps the
 * rest.
 * NAVD_OK. NAVD_NO_START: `from` is no place of what the view shows. NAVD_OUT_OF_RANGE: before all others. NAVD_EMPTY. NAVD_NO_MEMORY. */
uint32_t navd_view_slide(navd_view *view, const navd_place *from, const navd_point *to, uint64_t areas, navd_place *end);

/* The wall nearest to a place. Walls count to whose polygon links lead from that of the place, into allowed areas, through portals no farther from the
 * place than the wall is; so a wall of another storey, or behind one, is not told.
 * NAVD_OK. NAVD_NO_PLACE: there is none within the reach. NAVD_NO_START: around->from is no place of what the view shows. NAVD_OUT_OF_RANGE: before all
 * others. NAVD_EMPTY. NAVD_NO_MEMORY. */
uint32_t navd_view_nearest_wall(navd_view *view, const navd_around *around, navd_wall *wall);

/* All walls within the reach of the polygons to which such links lead through portals within the reach, by tile, polygon, edge, and along the edge; how
 * many there are is left at `count`.
 * NAVD_OK. NAVD_NO_START: around->from is no place of what the view shows. NAVD_OUT_OF_RANGE: before all others. NAVD_EMPTY. NAVD_NO_MEMORY. */
uint32_t navd_view_walls(navd_view *view, const navd_around *around, navd_wall *walls, size_t room, size_t *count);

/* One step of a crowd of at most 65535 agents, each by its wish. Where agents do not overlap when the step begins, they do not at any moment of it; two
 * that do come no nearer. Each goes straight and evenly, on the mesh, no farther than its speed; one that sees nobody goes as it wishes, if the mesh lets
 * it and the wish is no longer than its speed. Who goes before whom: of two the one with less `left`; idle ones last. Before the step each is placed in
 * a polygon of what the view shows that holds its middle, on floors no farther than the climb from those that it had; where there is none it is stranded:
 * it stands, and others keep away from it.
 * NAVD_OK: where each agent then is, is told, with what is the steps' own. NAVD_OUT_OF_RANGE: before all others. NAVD_EMPTY. NAVD_NO_MEMORY. */
uint32_t navd_view_crowd_step(navd_view *view, const navd_crowd *rules, navd_agent *agents, size_t count);

/* The sizes of agents after a step: who waited for 3 seconds has a quarter of its full radius, at least 1 and no more than it had, so that others can pass;
 * who does not wait has its full one again where it overlaps nobody with it. Agents are tried one after the other, and those that did not overlap do not
 * then. Where this is not asked, discs stay as hard as they are, and may block each other for good in narrow places.
 * NAVD_OK: the radius of each is told. NAVD_OUT_OF_RANGE: before all others. NAVD_EMPTY. NAVD_NO_MEMORY. */
uint32_t navd_view_crowd_slim(navd_view *view, const navd_crowd *rules, navd_agent *agents, size_t count);

/* One step of a crowd of at most 65535 agents, with wishes of the host's own: agent i is granted the first of the moves from moves[first[i]] to before
 * moves[first[i + 1]] that is free as the others move; where none is, it stands. `first` has one number more than there are agents. In each round those
 * named in `order` have their turns, who goes before others first. Agents that do not overlap when the step begins do not at any moment of it; two that
 * do come no nearer. Each goes straight and evenly, on the mesh, no farther than its speed; one that has nobody near is granted the first of its moves
 * that the mesh allows. Before the step each is placed in a polygon of what the view shows that holds its middle, on floors no farther than the climb from
 * those that it had; where there is none it is stranded: it stands, and others keep away from it.
 * NAVD_OK: where each agent then is, is told. NAVD_OUT_OF_RANGE: before all others. NAVD_EMPTY. NAVD_NO_MEMORY. */
uint32_t navd_view_crowd_grant(navd_view *view, const navd_crowd *rules, navd_agent *agents, size_t count, const uint32_t *order, size_t order_count,
                               const size_t *first, size_t first_count, const navd_fine *moves, size_t moves_count);

/* Where an agent with the middle agent->at at height y stands beside others: in the polygon with the nearest floors, no farther than the climb from y.
 * NAVD_OK: it is told where. NAVD_OVERLAPS: so it is, and the agent overlaps one of the others; it may enter all the same, and then comes no nearer to
 * that one. NAVD_NO_START: no polygon holds it. NAVD_OUT_OF_RANGE: before all others. NAVD_EMPTY. NAVD_NO_MEMORY. */
uint32_t navd_view_crowd_enter(navd_view *view, const navd_agent *agents, size_t count, navd_agent *agent, uint32_t y);

/* Where a kept path leads an agent: its links from the one that leaves the agent's polygon on, of which so many as `link` says were behind it before.
 * Those from there on are looked at first, up to 32, and then the 16 before; behind the last link the agent's polygon has to hold the goal.
 * NAVD_OK: agent->wish is no longer than agent->speed, and near the end the way to the goal; agent->left is how far the goal is, from the middle of a
 * portal to that of the next; so many links as `link` says are behind it. NAVD_CUT: none of these links is one of the mesh that leaves the agent's
 * polygon; look for a way anew. NAVD_OUT_OF_RANGE: before all others. NAVD_EMPTY. NAVD_NO_MEMORY. */
uint32_t navd_view_lead(navd_view *view, navd_agent *agent, const navd_point *goal, const navd_link *links, size_t count, size_t *link);

#ifdef __cplusplus
}
#endif

#endif
