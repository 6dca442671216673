// Navd.cs: a level of navd over its shared library, by P/Invoke. C# 7, for .NET, Mono and Unity, without unsafe code.
//
//     using (var level = new Navd.Level())
//     {
//         Navd.Fault fault;
//         uint number;
//         var path = new Navd.Path();                         // its arrays keep their room for the next question
//         level.Open(text, out fault);                        // each of these tells a Status
//         level.AddBlock(new Navd.Block { X0 = 1, X1 = 8, Y0 = 0, Y1 = 100, Z0 = 4, Z1 = 5 }, 0, out number);
//         level.Settle(out number);
//         var from = new Navd.Point { X = 40, Z = 40 };
//         var to = new Navd.Point { X = 40, Z = 120 };
//         if (level.FindPath(new Navd.Way { From = from, FromY = 10, To = to, ToY = 10 }, path) == Navd.Status.Ok) Follow(path.Turns);
//     }
//
// A method is the call of include/navd.h with its name, which says what it does, its units and limits, and its ends. The library is looked
// for as P/Invoke does: libnavd.so beside the program or in LD_LIBRARY_PATH, in Unity below Assets/Plugins.
//
// Threads. A level, a view and a job are each in one call at a time; calls of two of them may run side by side. What was not disposed of is
// closed by the thread of the finalizers, beside no other call of it.
//
// Garbage. A question whose answer has room in the arrays that it is handed makes none.
using System;
using System.Runtime.InteropServices;

namespace Navd
{
    /// <summary>How a call ended.</summary>
    public enum Status : uint
    {
        Ok = 0,
        NoMemory = 1,
        Empty = 2,
        Faulty = 3,
        OutOfRange = 4,
        TooMany = 5,
        Dead = 6,
        HistoryFull = 7,
        NotYet = 8,
        Same = 9,
        NoStart = 10,
        NoGoal = 11,
        NoPath = 12,
        Wall = 13,
        NoRoom = 14,
        Stale = 15,
        Foreign = 16,
        Busy = 17,
        TooManySpans = 18,
        Partial = 19,
        Limit = 20,
        Cut = 21,
        NoPlace = 22,
        NoObstacle = 24,
        NotSaved = 25,
        About = 26,
        Overlaps = 27
    }

    // == The structs of include/navd.h, field for field ==

    [StructLayout(LayoutKind.Sequential)]
    internal struct Handle
    {
        internal IntPtr At;
        internal uint Full;
    }

    /// <summary>A point, in sixteenths of a cell.</summary>
    [StructLayout(LayoutKind.Sequential)]
    public struct Point
    {
        public int X, Z;
    }

    /// <summary>Columns X0 to X1 and Z0 to Z1, heights Y0 to Y1.</summary>
    [StructLayout(LayoutKind.Sequential)]
    public struct Block
    {
        public uint X0, X1, Y0, Y1, Z0, Z1;
    }

    /// <summary>A centre in half cells, a radius in cells, heights Y0 to Y1.</summary>
    [StructLayout(LayoutKind.Sequential)]
    public struct Cylinder
    {
        public uint Cx, Cz, R, Y0, Y1;
    }

    /// <summary>How many corners a base has, these counterclockwise, in sixteenths of a cell, and heights Y0 to Y1.</summary>
    [StructLayout(LayoutKind.Sequential)]
    public struct Prism
    {
        public uint Corners;
        public Point First, Second, Third, Fourth, Fifth, Sixth;
        public uint Y0, Y1;
    }

    /// <summary>A centre and a radius in sixteenths of a cell, heights Y0 to Y1.</summary>
    [StructLayout(LayoutKind.Sequential)]
    public struct Disc
    {
        public int X, Z;
        public uint R, Y0, Y1;
    }

    /// <summary>A point of a game; Y points up.</summary>
    [StructLayout(LayoutKind.Sequential)]
    public struct WorldPoint
    {
        public float X, Y, Z;
    }

    /// <summary>A place in a frame: X and Z in sixteenths of a cell from its corner, Y in height units.</summary>
    [StructLayout(LayoutKind.Sequential)]
    public struct FramePlace
    {
        public int X, Y, Z;
    }

    /// <summary>The sizes of a cell and a height unit, and the corner of a field, in cells and height units from 0 of the game's numbers.</summary>
    [StructLayout(LayoutKind.Sequential)]
    public struct Frame
    {
        public float CellSize, CellHeight;
        public int X, Y, Z;
    }

    [StructLayout(LayoutKind.Sequential)]
    public struct FramedField
    {
        public Frame Frame;
        public uint Width, Depth;
    }

    /// <summary>Height units over sixteenths of a cell; with a Run of 0 nothing is too steep.</summary>
    [StructLayout(LayoutKind.Sequential)]
    public struct Slope
    {
        public uint Rise, Run, BothSides;
    }

    [StructLayout(LayoutKind.Sequential)]
    public struct Setting
    {
        public uint Width, Depth, Tile, Height, Climb, Radius, Error, Contours, Limit, Clear;
    }

    [StructLayout(LayoutKind.Sequential)]
    public struct Mesh
    {
        public Frame Frame;
        public Slope Slope;
        public Setting Setting;
    }

    /// <summary>A triangle that fails. 1: no such vertex; 2: a number is none; 3: outside; 4: an area above 63.</summary>
    [StructLayout(LayoutKind.Sequential)]
    public struct MeshFault
    {
        public UIntPtr Place;
        public uint Kind;
    }

    /// <summary>From where to where, with heights that say in which storey.</summary>
    [StructLayout(LayoutKind.Sequential)]
    public struct Way
    {
        public Point From;
        public uint FromY;
        public Point To;
        public uint ToY;
    }

    [StructLayout(LayoutKind.Sequential)]
    public struct Polygon
    {
        public uint Tile, Index;
    }

    /// <summary>A way into a polygon, through the portal from right to left.</summary>
    [StructLayout(LayoutKind.Sequential)]
    public struct Link
    {
        public Polygon From;
        public uint Edge;
        public Polygon To;
        public Point Left, Right;
    }

    /// <summary>A corner of a polygon, in whole cells.</summary>
    [StructLayout(LayoutKind.Sequential)]
    public struct Corner
    {
        public int X, Z;
    }

    /// <summary>A polygon as it is drawn; face.Corner(place) has its corners, from 0 to below Corners.</summary>
    [StructLayout(LayoutKind.Sequential)]
    public struct Face
    {
        public uint Corners;
        public Corner First, Second, Third, Fourth, Fifth, Sixth;
        public uint Area, Low, High;
    }

    /// <summary>A block (Kind 0), a cylinder (1), a prism (2) or a disc (3), with the area that it gives, or 0 where it stops agents. Of prisms and
    /// discs no numbers are told.</summary>
    [StructLayout(LayoutKind.Sequential)]
    public struct Obstacle
    {
        public uint Number, Area, Kind;
        public Block Block;
        public Cylinder Cylinder;
    }

    /// <summary>A kind of agent, in height units and cells, and the side of its tiles; with Clear not 0 it keeps its radius from obstacles too.</summary>
    [StructLayout(LayoutKind.Sequential)]
    public struct Kind
    {
        public uint Height, Climb, Radius, Clear, Tile;
    }

    /// <summary>What kinds share: columns, the error of outlines, strips (0) or contours, and how many obstacles may be alive.</summary>
    [StructLayout(LayoutKind.Sequential)]
    public struct Ground
    {
        public uint Width, Depth, Error, Contours, Limit;
    }

    /// <summary>A solid piece of a column, with the area of its top.</summary>
    [StructLayout(LayoutKind.Sequential)]
    public struct Span
    {
        public uint X, Z, Bottom, Top, Area;
    }

    /// <summary>A rectangle of columns: X0 to X1 and Z0 to Z1.</summary>
    [StructLayout(LayoutKind.Sequential)]
    public struct Columns
    {
        public uint X0, X1, Z0, Z1;
    }

    /// <summary>An obstacle of a registry: a block (Kind 0), a cylinder (1), a prism (2) or a disc (3), with the area that it gives, or 0 where it stops
    /// agents. The numbers of what it is not are not read, and are told as 0.</summary>
    [StructLayout(LayoutKind.Sequential)]
    public struct Solid
    {
        public uint Kind, Area;
        public Block Block;
        public Cylinder Cylinder;
        public Prism Prism;
        public Disc Disc;
    }

    /// <summary>An obstacle of a registry: its id, the host's own number, whether it is on (1) or off (0), and what it is.</summary>
    [StructLayout(LayoutKind.Sequential)]
    public struct Row
    {
        public ulong Id, User;
        public uint Enabled;
        public Solid Solid;
    }

    /// <summary>How many tiles an update built, whether something new is shown, whether some of what was asked for is not shown yet, and the version.</summary>
    [StructLayout(LayoutKind.Sequential)]
    public struct Updated
    {
        public uint Built, Published, Pending;
        public ulong Version;
    }

    /// <summary>A one-way jump, and what it costs.</summary>
    [StructLayout(LayoutKind.Sequential)]
    public struct Jump
    {
        public Point From;
        public uint FromY;
        public Point To;
        public uint ToY;
        public uint Cost;
    }

    /// <summary>A step over a link (Kind 0) or by the jump with a number (Kind 1), of which Link.To alone says something.</summary>
    [StructLayout(LayoutKind.Sequential)]
    public struct Step
    {
        public uint Kind, Jump;
        public Link Link;
    }

    [StructLayout(LayoutKind.Sequential)]
    internal struct NavdHop
    {
        internal Way Way;
        internal ulong Cost;
        internal Polygon First;
        internal UIntPtr Steps, Turns;
    }

    /// <summary>An agent on its way: where it stands, its goal, what the way that is left costs, and how many links that has.</summary>
    [StructLayout(LayoutKind.Sequential)]
    public struct Walker
    {
        public Polygon Polygon;
        public Point At;
        public uint Y;
        public Point Goal;
        public uint GoalY;
        public ulong Cost;
        public UIntPtr Links;
    }

    /// <summary>A turn of a path, round the left end (Side 0) or the right end (Side 1) of the portal of a link.</summary>
    [StructLayout(LayoutKind.Sequential)]
    public struct Turn
    {
        public Point At;
        public uint Side, Link;
    }

    [StructLayout(LayoutKind.Sequential)]
    public struct Floor
    {
        public uint Y, Area;
    }

    [StructLayout(LayoutKind.Sequential)]
    internal struct NavdPath
    {
        internal ulong Cost;
        internal Polygon First;
        internal UIntPtr Links, Turns;
    }

    [StructLayout(LayoutKind.Sequential)]
    internal struct NavdLine
    {
        internal Way Way;
        internal uint Most, Quick;
        internal ulong Upper, Lower;
        internal Polygon First, Last;
        internal UIntPtr Links, Turns;
    }

    /// <summary>Where a ray ends. Status.Ok: in Last. Status.Wall: at the edge from A to B, Num / Den of the way.</summary>
    [StructLayout(LayoutKind.Sequential)]
    public struct Ray
    {
        public Polygon Last;
        public Point A, B;
        public long Num, Den;
    }

    [StructLayout(LayoutKind.Sequential)]
    internal struct NavdPlan
    {
        internal Way Way;
        internal ulong Areas, MostCost;
        internal UIntPtr MostPolygons;
        internal uint Partial, Rise;
        internal ulong Cost, Seen;
        internal Polygon First, Last;
        internal Point End;
        internal uint EndY;
        internal UIntPtr Links, Turns;
    }

    [StructLayout(LayoutKind.Sequential)]
    internal struct NavdKept
    {
        internal Way Way;
        internal Polygon First;
        internal ulong Areas, Cost;
        internal UIntPtr Links, Turns;
    }

    [StructLayout(LayoutKind.Sequential)]
    internal struct NavdRepair
    {
        internal Way Way;
        internal Polygon First;
        internal uint Join;
        internal UIntPtr Count, Keep, MostPolygons;
        internal ulong Areas, Cost, Seen;
        internal UIntPtr Kept, Bridge, Links, Turns;
    }

    [StructLayout(LayoutKind.Sequential)]
    internal struct NavdFlood
    {
        internal Point At;
        internal uint Y, Back;
        internal ulong Areas, MostCost;
        internal UIntPtr Polygons;
    }

    /// <summary>A polygon of a flood, what a cheapest walk to it costs, and the place of the polygon before it; of a flood back what one from it costs, and
    /// the polygon behind it.</summary>
    [StructLayout(LayoutKind.Sequential)]
    public struct Reached
    {
        public Polygon Polygon;
        public ulong Cost;
        public UIntPtr Via;
    }

    /// <summary>A place to which a way may lead.</summary>
    [StructLayout(LayoutKind.Sequential)]
    public struct Goal
    {
        public Point At;
        public uint Y;
    }

    /// <summary>The nearest of many goals: its place among them, what the way there costs, that way's ends, and how many links it has; or that each way to
    /// a goal costs at least Seen.</summary>
    [StructLayout(LayoutKind.Sequential)]
    public struct Nearest
    {
        public Point At;
        public uint Y;
        public ulong Areas, MostCost;
        public UIntPtr Which;
        public ulong Cost, Seen;
        public Polygon First, Last;
        public UIntPtr Links;
    }

    /// <summary>A walker on a kept path: the line's ends, how far it has gone, how many links are looked at beside those that it uses, and how many are
    /// behind it; and where it is.</summary>
    [StructLayout(LayoutKind.Sequential)]
    public struct Follower
    {
        public Polygon First;
        public Point From, Goal;
        public uint Far, Ahead;
        public UIntPtr Link;
        public Polygon Polygon;
        public Point At;
        public uint Y;
    }

    /// <summary>A place on the mesh: a polygon, a point that it holds, and the floor there.</summary>
    [StructLayout(LayoutKind.Sequential)]
    public struct Place
    {
        public Polygon Polygon;
        public Point At;
        public uint Y;
    }

    /// <summary>What is looked for: allowed areas, a point and a height, how far in the plane, down and up, and what a height unit counts.</summary>
    [StructLayout(LayoutKind.Sequential)]
    public struct Near
    {
        public ulong Areas;
        public Point At;
        public uint Y, Reach, Down, Up, Weight;
    }

    /// <summary>Where walls are looked for: around a place, within a reach, and over polygons of which areas.</summary>
    [StructLayout(LayoutKind.Sequential)]
    public struct Around
    {
        public Place From;
        public uint Reach;
        public ulong Areas;
    }

    /// <summary>A point of the plane, or a vector, in 1/256 of a cell: sixteen to a unit of a Point.</summary>
    [StructLayout(LayoutKind.Sequential)]
    public struct Fine
    {
        public int X, Z;
    }

    /// <summary>An agent of a crowd, a disc. Where it is, the calls tell: the polygon that holds its middle, that polygon's floors, and whether none is known
    /// (1). Radius is 1 to Full; Full and Speed, how far it may go in a step, are at most 8191, in 1/256 of a cell.</summary>
    [StructLayout(LayoutKind.Sequential)]
    public struct Agent
    {
        public Polygon Polygon;
        public Fine At;
        public uint Low, High, Stranded, Idle;
        public ulong Areas, Left;
        public uint Radius, Full, Speed, Unused;
        public Fine Wish, Last, Meant;
        public uint Waited, Tired;
    }

    /// <summary>How far the agents of a crowd see, at most 16384 in 1/256 of a cell, how many steps it makes a second, 1 to 1000, and in how many rounds moves
    /// are granted, 1 to 64.</summary>
    [StructLayout(LayoutKind.Sequential)]
    public struct Crowd
    {
        public uint Sight, Hz, Rounds;
    }

    /// <summary>A wall on an edge of a polygon, which lies to its left; Num / Den is the square of how far it is.</summary>
    [StructLayout(LayoutKind.Sequential)]
    public struct Wall
    {
        public Polygon Polygon;
        public Point Begin, End;
        public ulong Num, Den;
        public uint Edge;
    }

    [StructLayout(LayoutKind.Sequential)]
    internal struct NavdFoundWay
    {
        internal ulong Cost, Seen;
        internal UIntPtr Links, Corners;
    }

    [StructLayout(LayoutKind.Sequential)]
    internal struct NavdPlaceWay
    {
        internal Place From, To;
        internal ulong Areas, MostCost;
        internal UIntPtr MostPolygons;
        internal NavdFoundWay Found;
    }

    [StructLayout(LayoutKind.Sequential)]
    internal struct NavdNearWay
    {
        internal Near From, To;
        internal ulong Areas, MostCost;
        internal UIntPtr MostPolygons;
        internal NavdFoundWay Found;
    }

    /// <summary>The first line of a text that fails, from 1, and the kind of its fault.</summary>
    [StructLayout(LayoutKind.Sequential)]
    public struct Fault
    {
        public uint Line, Kind;
    }

    [StructLayout(LayoutKind.Sequential)]
    public struct Counts
    {
        public uint History, Target, Published, Tiles, Polygons, Links;
    }

    [StructLayout(LayoutKind.Sequential)]
    public struct Shown
    {
        public uint Published, Tiles;
    }

    // == The calls of include/navd.h ==

    internal static class Native
    {
        const string Library = "navd";

        [DllImport(Library)]
        internal static extern uint navd_version();
        [DllImport(Library)]
        internal static extern Status navd_open(LevelHandle level, byte[] text, UIntPtr length, out Fault fault);
        [DllImport(Library)]
        internal static extern Status navd_open_triangles(LevelHandle level, byte[] text, UIntPtr length, out Fault fault);
        [DllImport(Library)]
        internal static extern Status navd_frame_of(ref Frame sizes, ref WorldPoint low, ref WorldPoint high, out FramedField field);
        [DllImport(Library)]
        internal static extern Status navd_quantize(ref Frame frame, WorldPoint[] points, UIntPtr howMany, [Out] FramePlace[] places, UIntPtr room,
            out UIntPtr count);
        [DllImport(Library)]
        internal static extern Status navd_dequantize(ref Frame frame, FramePlace[] places, UIntPtr howMany, [Out] WorldPoint[] points, UIntPtr room,
            out UIntPtr count);
        [DllImport(Library)]
        internal static extern Status navd_open_mesh(LevelHandle level, ref Mesh mesh, float[] vertices, UIntPtr numbers, uint[] corners, UIntPtr count,
            byte[] areas, UIntPtr areaCount, out MeshFault fault);
        [DllImport(Library)]
        internal static extern void navd_close(IntPtr level);
        [DllImport(Library)]
        internal static extern Status navd_add_block(LevelHandle level, ref Block block, uint area, out uint entry);
        [DllImport(Library)]
        internal static extern Status navd_add_cylinder(LevelHandle level, ref Cylinder cylinder, uint area, out uint entry);
        [DllImport(Library)]
        internal static extern Status navd_add_prism(LevelHandle level, ref Prism prism, uint area, out uint entry);
        [DllImport(Library)]
        internal static extern Status navd_add_disc(LevelHandle level, ref Disc disc, uint area, out uint entry);
        [DllImport(Library)]
        internal static extern Status navd_remove(LevelHandle level, uint number, out uint entry);
        [DllImport(Library)]
        internal static extern Status navd_settle(LevelHandle level, out uint published);
        [DllImport(Library)]
        internal static extern Status navd_aim(LevelHandle level, out uint target);
        [DllImport(Library)]
        internal static extern Status navd_step(LevelHandle level, out uint tile);
        [DllImport(Library)]
        internal static extern Status navd_publish(LevelHandle level, out uint number);
        [DllImport(Library)]
        internal static extern Status navd_renew(LevelHandle level, [Out] uint[] numbers, UIntPtr room, out UIntPtr count);
        [DllImport(Library)]
        internal static extern Status navd_claim(LevelHandle level, JobHandle job, out uint tile);
        [DllImport(Library)]
        internal static extern Status navd_build(JobHandle job);
        [DllImport(Library)]
        internal static extern Status navd_submit(LevelHandle level, JobHandle job);
        [DllImport(Library)]
        internal static extern Status navd_put_back(LevelHandle level, JobHandle job);
        [DllImport(Library)]
        internal static extern Status navd_put_back_all(LevelHandle level);
        [DllImport(Library)]
        internal static extern void navd_job_close(IntPtr job);
        [DllImport(Library)]
        internal static extern Status navd_registry_begin(RegistryHandle registry, LevelHandle level);
        [DllImport(Library)]
        internal static extern void navd_registry_close(IntPtr registry);
        [DllImport(Library)]
        internal static extern Status navd_registry_add(RegistryHandle registry, ref Solid solid, ulong user, out ulong id);
        [DllImport(Library)]
        internal static extern Status navd_registry_move(RegistryHandle registry, ulong id, ref Solid solid);
        [DllImport(Library)]
        internal static extern Status navd_registry_enable(RegistryHandle registry, ulong id, uint enabled);
        [DllImport(Library)]
        internal static extern Status navd_registry_mark(RegistryHandle registry, ulong id, ulong user);
        [DllImport(Library)]
        internal static extern Status navd_registry_remove(RegistryHandle registry, ulong id);
        [DllImport(Library)]
        internal static extern Status navd_registry_rows(RegistryHandle registry, [Out] Row[] rows, UIntPtr room, out UIntPtr count);
        [DllImport(Library)]
        internal static extern Status navd_registry_update(RegistryHandle registry, uint most, out Updated updated);
        [DllImport(Library)]
        internal static extern Status navd_registry_claim(RegistryHandle registry, JobHandle job, out uint tile);
        [DllImport(Library)]
        internal static extern Status navd_registry_submit(RegistryHandle registry, JobHandle job);
        [DllImport(Library)]
        internal static extern Status navd_registry_put_back(RegistryHandle registry, JobHandle job);
        [DllImport(Library)]
        internal static extern Status navd_registry_put_back_all(RegistryHandle registry);
        [DllImport(Library)]
        internal static extern Status navd_registry_save(RegistryHandle registry, [Out] byte[] bytes, UIntPtr room, out UIntPtr length);
        [DllImport(Library)]
        internal static extern Status navd_registry_restore(RegistryHandle registry, byte[] bytes, UIntPtr length);
        [DllImport(Library)]
        internal static extern Status navd_registry_look(ViewHandle view, RegistryHandle registry, out ulong version);
        [DllImport(Library)]
        internal static extern Status navd_kinds_open(KindsHandle kinds, ref Ground ground, Kind[] kind, UIntPtr count, uint[] costs, UIntPtr costsCount,
            Span[] spans, UIntPtr spansCount);
        [DllImport(Library)]
        internal static extern void navd_kinds_close(IntPtr kinds);
        [DllImport(Library)]
        internal static extern Status navd_kinds_add_block(KindsHandle kinds, ref Block block, uint area, out uint entry);
        [DllImport(Library)]
        internal static extern Status navd_kinds_add_cylinder(KindsHandle kinds, ref Cylinder cylinder, uint area, out uint entry);
        [DllImport(Library)]
        internal static extern Status navd_kinds_add_prism(KindsHandle kinds, ref Prism prism, uint area, out uint entry);
        [DllImport(Library)]
        internal static extern Status navd_kinds_add_disc(KindsHandle kinds, ref Disc disc, uint area, out uint entry);
        [DllImport(Library)]
        internal static extern Status navd_kinds_remove(KindsHandle kinds, uint number, out uint entry);
        [DllImport(Library)]
        internal static extern Status navd_kinds_settle(KindsHandle kinds, out uint published);
        [DllImport(Library)]
        internal static extern Status navd_kinds_aim(KindsHandle kinds, out uint target);
        [DllImport(Library)]
        internal static extern Status navd_kinds_renew(KindsHandle kinds, [Out] uint[] numbers, UIntPtr room, out UIntPtr count);
        [DllImport(Library)]
        internal static extern Status navd_kinds_change_ground(KindsHandle kinds, ref Columns columns, Span[] spans, UIntPtr count);
        [DllImport(Library)]
        internal static extern Status navd_kinds_claim(KindsHandle kinds, JobHandle job, out uint kind, out uint tile);
        [DllImport(Library)]
        internal static extern Status navd_kinds_submit(KindsHandle kinds, uint kind, JobHandle job);
        [DllImport(Library)]
        internal static extern Status navd_kinds_put_back(KindsHandle kinds, uint kind, JobHandle job);
        [DllImport(Library)]
        internal static extern Status navd_kinds_put_back_all(KindsHandle kinds);
        [DllImport(Library)]
        internal static extern Status navd_kinds_step(KindsHandle kinds, out uint kind, out uint tile);
        [DllImport(Library)]
        internal static extern Status navd_kinds_publish(KindsHandle kinds, out uint kind, out uint number);
        [DllImport(Library)]
        internal static extern Status navd_kinds_count(KindsHandle kinds, uint kind, out Counts counts);
        [DllImport(Library)]
        internal static extern Status navd_kinds_look(ViewHandle view, KindsHandle kinds, uint kind, out uint published);
        [DllImport(Library)]
        internal static extern Status navd_floors(LevelHandle level, uint x, uint z, [Out] Floor[] floors, UIntPtr room, out UIntPtr count);
        [DllImport(Library)]
        internal static extern Status navd_prepare(LevelHandle level);
        [DllImport(Library)]
        internal static extern Status navd_find_path(LevelHandle level, ref Way way, [Out] Link[] links, UIntPtr linksRoom,
            [Out] Turn[] turns,
            UIntPtr turnsRoom, ref NavdPath path);
        [DllImport(Library)]
        internal static extern Status navd_cast_ray(LevelHandle level, ref Way way, ref Ray ray);
        [DllImport(Library)]
        internal static extern Status navd_find_hop(LevelHandle level, ref NavdHop hop, Jump[] jumps, UIntPtr count, [Out] Step[] steps,
            UIntPtr stepsRoom, [Out] Turn[] turns, UIntPtr turnsRoom);
        [DllImport(Library)]
        internal static extern Status navd_send(LevelHandle level, ref Way way, [Out] Link[] links, UIntPtr room, ref Walker walker);
        [DllImport(Library)]
        internal static extern Status navd_march(LevelHandle level, ref Walker walker, uint length, [Out] Link[] links, UIntPtr room);
        [DllImport(Library)]
        internal static extern Status navd_polygons(LevelHandle level, uint tile, [Out] Face[] polygons, UIntPtr room, out UIntPtr count);
        [DllImport(Library)]
        internal static extern Status navd_inner_links(LevelHandle level, uint tile, [Out] Link[] links, UIntPtr room, out UIntPtr count);
        [DllImport(Library)]
        internal static extern Status navd_border_links(LevelHandle level, uint tile, [Out] Link[] links, UIntPtr room, out UIntPtr count);
        [DllImport(Library)]
        internal static extern Status navd_changed_tiles(LevelHandle level, uint since, [Out] uint[] tiles, UIntPtr room, out UIntPtr count);
        [DllImport(Library)]
        internal static extern Status navd_obstacles(LevelHandle level, [Out] Obstacle[] obstacles, UIntPtr room, out UIntPtr count);
        [DllImport(Library)]
        internal static extern Status navd_count(LevelHandle level, out Counts counts);
        [DllImport(Library)]
        internal static extern Status navd_look(ViewHandle view, LevelHandle level, out uint published);
        [DllImport(Library)]
        internal static extern void navd_view_close(IntPtr view);
        [DllImport(Library)]
        internal static extern Status navd_view_copy(ViewHandle to, ViewHandle from);
        [DllImport(Library)]
        internal static extern Status navd_view_set_costs(ViewHandle view, uint[] costs, UIntPtr count);
        [DllImport(Library)]
        internal static extern Status navd_view_count(ViewHandle view, out Shown shown);
        [DllImport(Library)]
        internal static extern Status navd_view_floors(ViewHandle view, uint x, uint z, [Out] Floor[] floors, UIntPtr room,
            out UIntPtr count);
        [DllImport(Library)]
        internal static extern Status navd_view_find_path(ViewHandle view, ref Way way, [Out] Link[] links, UIntPtr linksRoom,
            [Out] Turn[] turns, UIntPtr turnsRoom, ref NavdPath path);
        [DllImport(Library)]
        internal static extern Status navd_view_cast_ray(ViewHandle view, ref Way way, ref Ray ray);
        [DllImport(Library)]
        internal static extern Status navd_view_find_hop(ViewHandle view, ref NavdHop hop, Jump[] jumps, UIntPtr count, [Out] Step[] steps,
            UIntPtr stepsRoom, [Out] Turn[] turns, UIntPtr turnsRoom);
        [DllImport(Library)]
        internal static extern Status navd_view_send(ViewHandle view, ref Way way, [Out] Link[] links, UIntPtr room, ref Walker walker);
        [DllImport(Library)]
        internal static extern Status navd_view_march(ViewHandle view, ref Walker walker, uint length, [Out] Link[] links, UIntPtr room);
        [DllImport(Library)]
        internal static extern Status navd_view_polygons(ViewHandle view, uint tile, [Out] Face[] polygons, UIntPtr room,
            out UIntPtr count);
        [DllImport(Library)]
        internal static extern Status navd_view_inner_links(ViewHandle view, uint tile, [Out] Link[] links, UIntPtr room,
            out UIntPtr count);
        [DllImport(Library)]
        internal static extern Status navd_view_border_links(ViewHandle view, uint tile, [Out] Link[] links, UIntPtr room,
            out UIntPtr count);
        [DllImport(Library)]
        internal static extern Status navd_view_check_path(ViewHandle view, ref NavdKept kept, uint[] costs, UIntPtr costsCount,
            [In][Out] Link[] links, UIntPtr count, [Out] Turn[] turns, UIntPtr turnsRoom);
        [DllImport(Library)]
        internal static extern Status navd_view_repair_path(ViewHandle view, ref NavdRepair repair, uint[] costs, UIntPtr costsCount,
            [In][Out] Link[] links, UIntPtr linksRoom, [Out] Turn[] turns, UIntPtr turnsRoom);
        [DllImport(Library)]
        internal static extern Status navd_view_flood(ViewHandle view, ref NavdFlood flood, uint[] costs, UIntPtr costsCount,
            [Out] Reached[] reached, UIntPtr room);
        [DllImport(Library)]
        internal static extern Status navd_view_plan(ViewHandle view, ref NavdPlan plan, uint[] costs, UIntPtr costsCount,
            [Out] Link[] links, UIntPtr linksRoom, [Out] Turn[] turns, UIntPtr turnsRoom);
        [DllImport(Library)]
        internal static extern Status navd_view_nearest_goal(ViewHandle view, ref Nearest nearest, uint[] costs, UIntPtr costsCount, Goal[] goals,
            UIntPtr count, [Out] Link[] links, UIntPtr room);
        [DllImport(Library)]
        internal static extern Status navd_view_follow_path(ViewHandle view, ref Follower follower, Link[] links, UIntPtr count, Turn[] turns,
            UIntPtr turnsCount);
        [DllImport(Library)]
        internal static extern Status navd_view_nearest(ViewHandle view, ref Near near, ref Place place);
        [DllImport(Library)]
        internal static extern Status navd_view_height(ViewHandle view, ref Place place);
        [DllImport(Library)]
        internal static extern Status navd_view_is_place(ViewHandle view, ref Place place);
        [DllImport(Library)]
        internal static extern Status navd_view_random_place(ViewHandle view, ulong areas, ulong draw, ref Place place);
        [DllImport(Library)]
        internal static extern Status navd_view_find_way(ViewHandle view, ref NavdPlaceWay way, uint[] costs, UIntPtr costsCount,
            [Out] Link[] links, UIntPtr linksRoom, [Out] Place[] corners, UIntPtr cornersRoom);
        [DllImport(Library)]
        internal static extern Status navd_view_find_way_near(ViewHandle view, ref NavdNearWay way, uint[] costs, UIntPtr costsCount,
            [Out] Link[] links, UIntPtr linksRoom, [Out] Place[] corners, UIntPtr cornersRoom);
        [DllImport(Library)]
        internal static extern Status navd_view_cast_ray_from(ViewHandle view, ref Place from, ref Point to, ref Ray ray);
        [DllImport(Library)]
        internal static extern Status navd_view_slide(ViewHandle view, ref Place from, ref Point to, ulong areas, ref Place end);
        [DllImport(Library)]
        internal static extern Status navd_view_shortest(ViewHandle view, ref NavdLine line, [Out] Link[] links, UIntPtr linksRoom,
            [Out] Turn[] turns, UIntPtr turnsRoom);
        [DllImport(Library)]
        internal static extern Status navd_view_nearest_wall(ViewHandle view, ref Around around, ref Wall wall);
        [DllImport(Library)]
        internal static extern Status navd_view_walls(ViewHandle view, ref Around around, [Out] Wall[] walls, UIntPtr room, out UIntPtr count);
        [DllImport(Library)]
        internal static extern Status navd_view_crowd_step(ViewHandle view, ref Crowd rules, [In][Out] Agent[] agents, UIntPtr count);
        [DllImport(Library)]
        internal static extern Status navd_view_crowd_slim(ViewHandle view, ref Crowd rules, [In][Out] Agent[] agents, UIntPtr count);
        [DllImport(Library)]
        internal static extern Status navd_view_crowd_grant(ViewHandle view, ref Crowd rules, [In][Out] Agent[] agents, UIntPtr count, uint[] order,
            UIntPtr orderCount, UIntPtr[] first, UIntPtr firstCount, Fine[] moves, UIntPtr movesCount);
        [DllImport(Library)]
        internal static extern Status navd_view_crowd_enter(ViewHandle view, Agent[] agents, UIntPtr count, ref Agent agent, uint y);
        [DllImport(Library)]
        internal static extern Status navd_view_lead(ViewHandle view, ref Agent agent, ref Point goal, Link[] links, UIntPtr count, ref UIntPtr link);
    }

    /// <summary>The version, as major * 10000 + minor * 100 + patch: of this file, and of the library.</summary>
    public static class Version
    {
        public const uint Wanted = 100;

        public static uint OfLibrary()
        {
            return Native.navd_version();
        }
    }

    // == Owners of handles ==

    /// <summary>The place of a handle, outside of what the garbage collector moves. It begins zeroed, and so holds nothing.</summary>
    internal abstract class Owned : SafeHandle
    {
        protected Owned() : base(IntPtr.Zero, true)
        {
            SetHandle(Marshal.AllocHGlobal(Marshal.SizeOf(typeof(Handle))));
            Marshal.StructureToPtr(new Handle(), handle, false);
        }

        /// <summary>The place of a handle that another owner has.</summary>
        protected Owned(IntPtr place) : base(IntPtr.Zero, true)
        {
            SetHandle(place);
        }

        public override bool IsInvalid
        {
            get { return handle == IntPtr.Zero; }
        }

        protected bool Freed()
        {
            Marshal.FreeHGlobal(handle);
            return true;
        }
    }

    internal sealed class LevelHandle : Owned
    {
        protected override bool ReleaseHandle()
        {
            Native.navd_close(handle);
            return Freed();
        }
    }

    internal class ViewHandle : Owned
    {
        internal ViewHandle()
        {
        }

        protected ViewHandle(IntPtr place) : base(place)
        {
        }

        protected override bool ReleaseHandle()
        {
            Native.navd_view_close(handle);
            return Freed();
        }
    }

    internal sealed class JobHandle : Owned
    {
        protected override bool ReleaseHandle()
        {
            Native.navd_job_close(handle);
            return Freed();
        }
    }

    internal class RegistryHandle : Owned
    {
        internal RegistryHandle()
        {
        }

        protected RegistryHandle(IntPtr place) : base(place)
        {
        }

        protected override bool ReleaseHandle()
        {
            Native.navd_registry_close(handle);
            return Freed();
        }
    }

    internal sealed class KindsHandle : Owned
    {
        protected override bool ReleaseHandle()
        {
            Native.navd_kinds_close(handle);
            return Freed();
        }
    }

    // == Arrays ==

    /// <summary>What a call told: Count elements, in an array with room for more, which is kept for the next call.</summary>
    public sealed class Room<T> where T : struct
    {
        public T[] Items = new T[16];
        public int Count;

        public T this[int place]
        {
            get
            {
                if (place < 0 || place >= Count) throw new ArgumentOutOfRangeException("place");
                return Items[place];
            }
        }

        internal UIntPtr Length
        {
            get { return Given.Length(Items); }
        }

        /// <summary>Takes how many there are, or 0 where nothing was told. False, and room is made, where there was too little.</summary>
        internal bool Takes(bool told, UIntPtr count)
        {
            Count = told ? checked((int)count.ToUInt64()) : 0;
            if (Count <= Items.Length) return true;
            Items = new T[Count];
            return false;
        }
    }

    internal static class Given
    {
        internal static readonly UIntPtr Most = UIntPtr.Size == 8 ? (UIntPtr)ulong.MaxValue : (UIntPtr)uint.MaxValue;

        /// <summary>A limit, of which the greatest number is none.</summary>
        internal static UIntPtr Limit(uint most)
        {
            return most == uint.MaxValue ? Most : (UIntPtr)most;
        }

        internal static UIntPtr Length(Array items)
        {
            return (UIntPtr)(uint)items.Length;
        }

        /// <summary>What a call reads: no null, and an address also where there is no element.</summary>
        internal static T[] Items<T>(T[] items, string name)
        {
            if (items == null) throw new ArgumentNullException(name);
            return items.Length == 0 ? None<T>.Items : items;
        }

        static class None<T>
        {
            internal static readonly T[] Items = new T[1];
        }
    }

    public static class Faces
    {
        /// <summary>A corner of a polygon, by its place from 0.</summary>
        public static Corner Corner(this Face face, int place)
        {
            if (place < 0 || place >= face.Corners) throw new ArgumentOutOfRangeException("place");
            switch (place)
            {
                case 0: return face.First;
                case 1: return face.Second;
                case 2: return face.Third;
                case 3: return face.Fourth;
                case 4: return face.Fifth;
                default: return face.Sixth;
            }
        }
    }

    public sealed class Path
    {
        public ulong Cost;
        public Polygon First;
        public readonly Room<Link> Links = new Room<Link>();
        public readonly Room<Turn> Turns = new Room<Turn>();
    }

    /// <summary>A line that is not longer than Upper; no line over the links of the mesh is shorter than Lower. Both are in 65536ths of a cell.</summary>
    public sealed class Line
    {
        public ulong Upper, Lower;
        public Polygon First, Last;
        public readonly Room<Link> Links = new Room<Link>();
        public readonly Room<Turn> Turns = new Room<Turn>();
    }

    /// <summary>A way between two places, which are the first of its corners and the last.</summary>
    public sealed class PlaceWay
    {
        public ulong Cost;
        public readonly Room<Link> Links = new Room<Link>();
        public readonly Room<Place> Corners = new Room<Place>();
    }

    /// <summary>The areas that may be entered, bit a for area a, and costs by area for one question, or none for those of the view.</summary>
    public sealed class Filter
    {
        public ulong Areas = ulong.MaxValue;
        public uint[] Costs = new uint[0];
    }

    public sealed class Hop
    {
        public ulong Cost;
        public Polygon First;
        public readonly Room<Step> Steps = new Room<Step>();
        public readonly Room<Turn> Turns = new Room<Turn>();
    }

    // == A level, a view, a job ==

    /// <summary>What is asked of a level and of a view alike.</summary>
    public abstract class Asked : IDisposable
    {
        internal readonly LevelHandle level;
        internal readonly ViewHandle view;

        internal Asked(LevelHandle level, ViewHandle view)
        {
            this.level = level;
            this.view = view;
        }

        public void Dispose()
        {
            if (view == null) level.Dispose(); else view.Dispose();
        }

        public Status Floors(uint x, uint z, Room<Floor> floors)
        {
            Status status;
            UIntPtr count;
            do
            {
                status = view == null
                    ? Native.navd_floors(level, x, z, floors.Items, floors.Length, out count)
                    : Native.navd_view_floors(view, x, z, floors.Items, floors.Length, out count);
            } while (!floors.Takes(status == Status.Ok, count));
            return status;
        }

        public Status FindPath(Way way, Path path)
        {
            Status status;
            var told = new NavdPath();
            Room<Link> links = path.Links;
            Room<Turn> turns = path.Turns;
            do
            {
                status = view == null
                    ? Native.navd_find_path(level, ref way, links.Items, links.Length, turns.Items, turns.Length, ref told)
                    : Native.navd_view_find_path(view, ref way, links.Items, links.Length, turns.Items, turns.Length, ref told);
            } while (!links.Takes(status == Status.Ok, told.Links) | !turns.Takes(status == Status.Ok, told.Turns));
            path.Cost = told.Cost;
            path.First = told.First;
            return status;
        }

        public Status CastRay(Way way, ref Ray ray)
        {
            return view == null ? Native.navd_cast_ray(level, ref way, ref ray) : Native.navd_view_cast_ray(view, ref way, ref ray);
        }

        public Status FindHop(Way way, Jump[] jumps, Hop hop)
        {
            Status status;
            var told = new NavdHop { Way = way };
            Jump[] items = Given.Items(jumps, "jumps");
            UIntPtr count = Given.Length(jumps);
            Room<Step> steps = hop.Steps;
            Room<Turn> turns = hop.Turns;
            do
            {
                status = view == null
                    ? Native.navd_find_hop(level, ref told, items, count, steps.Items, steps.Length, turns.Items, turns.Length)
                    : Native.navd_view_find_hop(view, ref told, items, count, steps.Items, steps.Length, turns.Items, turns.Length);
            } while (!steps.Takes(status == Status.Ok, told.Steps) | !turns.Takes(status == Status.Ok, told.Turns));
            hop.Cost = told.Cost;
            hop.First = told.First;
            return status;
        }

        public Status Send(Way way, ref Walker walker, Room<Link> links)
        {
            Status status;
            do
            {
                status = view == null
                    ? Native.navd_send(level, ref way, links.Items, links.Length, ref walker)
                    : Native.navd_view_send(view, ref way, links.Items, links.Length, ref walker);
            } while (!links.Takes(status == Status.Ok, walker.Links));
            return status;
        }

        /// <summary>Where the links have too little room, the walker goes once more from where it was.</summary>
        public Status March(ref Walker walker, uint length, Room<Link> links)
        {
            Status status;
            Walker moved;
            do
            {
                moved = walker;
                status = view == null
                    ? Native.navd_march(level, ref moved, length, links.Items, links.Length)
                    : Native.navd_view_march(view, ref moved, length, links.Items, links.Length);
            } while (!links.Takes(status == Status.Ok, moved.Links));
            walker = moved;
            return status;
        }

        public Status Polygons(uint tile, Room<Face> polygons)
        {
            Status status;
            UIntPtr count;
            do
            {
                status = view == null
                    ? Native.navd_polygons(level, tile, polygons.Items, polygons.Length, out count)
                    : Native.navd_view_polygons(view, tile, polygons.Items, polygons.Length, out count);
            } while (!polygons.Takes(status == Status.Ok, count));
            return status;
        }

        public Status InnerLinks(uint tile, Room<Link> links)
        {
            Status status;
            UIntPtr count;
            do
            {
                status = view == null
                    ? Native.navd_inner_links(level, tile, links.Items, links.Length, out count)
                    : Native.navd_view_inner_links(view, tile, links.Items, links.Length, out count);
            } while (!links.Takes(status == Status.Ok, count));
            return status;
        }

        public Status BorderLinks(uint tile, Room<Link> links)
        {
            Status status;
            UIntPtr count;
            do
            {
                status = view == null
                    ? Native.navd_border_links(level, tile, links.Items, links.Length, out count)
                    : Native.navd_view_border_links(view, tile, links.Items, links.Length, out count);
            } while (!links.Takes(status == Status.Ok, count));
            return status;
        }
    }

    public sealed class Level : Asked
    {
        public Level() : base(new LevelHandle(), null)
        {
        }

        public Status Open(byte[] text, out Fault fault)
        {
            byte[] items = Given.Items(text, "text");
            return Native.navd_open(level, items, Given.Length(text), out fault);
        }

        public Status OpenTriangles(byte[] text, out Fault fault)
        {
            byte[] items = Given.Items(text, "text");
            return Native.navd_open_triangles(level, items, Given.Length(text), out fault);
        }

        public Status OpenMesh(Mesh mesh, float[] vertices, uint[] corners, byte[] areas, out MeshFault fault)
        {
            float[] points = Given.Items(vertices, "vertices");
            uint[] triples = Given.Items(corners, "corners");
            byte[] given = Given.Items(areas, "areas");
            return Native.navd_open_mesh(level, ref mesh, points, Given.Length(vertices), triples, Given.Length(corners), given, Given.Length(areas),
                out fault);
        }

        public Status AddBlock(Block block, uint area, out uint entry)
        {
            return Native.navd_add_block(level, ref block, area, out entry);
        }

        public Status AddCylinder(Cylinder cylinder, uint area, out uint entry)
        {
            return Native.navd_add_cylinder(level, ref cylinder, area, out entry);
        }

        public Status AddPrism(Prism prism, uint area, out uint entry)
        {
            return Native.navd_add_prism(level, ref prism, area, out entry);
        }

        public Status AddDisc(Disc disc, uint area, out uint entry)
        {
            return Native.navd_add_disc(level, ref disc, area, out entry);
        }

        public Status Remove(uint number, out uint entry)
        {
            return Native.navd_remove(level, number, out entry);
        }

        public Status Settle(out uint published)
        {
            return Native.navd_settle(level, out published);
        }

        public Status Aim(out uint target)
        {
            return Native.navd_aim(level, out target);
        }

        public Status Step(out uint tile)
        {
            return Native.navd_step(level, out tile);
        }

        public Status Publish(out uint number)
        {
            return Native.navd_publish(level, out number);
        }

        public Status Prepare()
        {
            return Native.navd_prepare(level);
        }

        /// <summary>Status.NoRoom does not come: nothing was done then, and the room is made.</summary>
        public Status Renew(Room<uint> numbers)
        {
            Status status;
            UIntPtr count;
            do
            {
                status = Native.navd_renew(level, numbers.Items, numbers.Length, out count);
            } while (!numbers.Takes(status == Status.Ok || status == Status.NoRoom, count));
            return status;
        }

        public Status Claim(Job job, out uint tile)
        {
            return Native.navd_claim(level, job.job, out tile);
        }

        public Status Submit(Job job)
        {
            return Native.navd_submit(level, job.job);
        }

        public Status PutBack(Job job)
        {
            return Native.navd_put_back(level, job.job);
        }

        public Status PutBackAll()
        {
            return Native.navd_put_back_all(level);
        }

        public Status ChangedTiles(uint since, Room<uint> tiles)
        {
            Status status;
            UIntPtr count;
            do
            {
                status = Native.navd_changed_tiles(level, since, tiles.Items, tiles.Length, out count);
            } while (!tiles.Takes(status == Status.Ok, count));
            return status;
        }

        public Status Obstacles(Room<Obstacle> obstacles)
        {
            Status status;
            UIntPtr count;
            do
            {
                status = Native.navd_obstacles(level, obstacles.Items, obstacles.Length, out count);
            } while (!obstacles.Takes(status == Status.Ok, count));
            return status;
        }

        public Status Count(out Counts counts)
        {
            return Native.navd_count(level, out counts);
        }
    }

    public sealed class View : Asked
    {
        public View() : base(null, new ViewHandle())
        {
        }

        internal View(ViewHandle handle) : base(null, handle)
        {
        }

        public Status Look(Level level, out uint published)
        {
            return Native.navd_look(view, level.level, out published);
        }

        public Status LookAt(Registry registry, out ulong version)
        {
            return Native.navd_registry_look(view, registry.registry, out version);
        }

        public Status Look(Kinds kinds, uint kind, out uint published)
        {
            return Native.navd_kinds_look(view, kinds.kinds, kind, out published);
        }

        /// <summary>Shows what another view shows, with the costs that that one has of its own: for another thread.</summary>
        public Status Copy(View from)
        {
            if (from == this) throw new ArgumentException("a view of itself", "from");
            return Native.navd_view_copy(view, from.view);
        }

        public Status SetCosts(uint[] costs)
        {
            uint[] items = Given.Items(costs, "costs");
            return Native.navd_view_set_costs(view, items, Given.Length(costs));
        }

        /// <summary>A cheapest way through a filter; the search ends behind mostCost and after mostPolygons, where they are not their types' greatest numbers.
        /// Status.Limit: a way there, if there is one, costs at least `seen`.</summary>
        public Status Plan(Way way, Filter filter, ulong mostCost, uint mostPolygons, Path path, out ulong seen)
        {
            var told = new NavdPlan { Way = way, MostCost = mostCost, MostPolygons = Given.Limit(mostPolygons) };
            Status status = Planned(ref told, filter, path);
            seen = told.Seen;
            return status;
        }

        /// <summary>The same, and where none is found, Status.Partial: the way to the nearest place, left at `end` on its polygon's least floor, by the
        /// distance in the plane and `rise` sixteenths for each unit of height. After Status.Ok `end` is the goal.</summary>
        public Status PlanPartial(Way way, Filter filter, ulong mostCost, uint mostPolygons, uint rise, Path path, out Place end, out ulong seen)
        {
            var told = new NavdPlan { Way = way, MostCost = mostCost, MostPolygons = Given.Limit(mostPolygons), Partial = 1, Rise = rise };
            Status status = Planned(ref told, filter, path);
            end = new Place { Polygon = told.Last, At = told.End, Y = told.EndY };
            seen = told.Seen;
            return status;
        }

        Status Planned(ref NavdPlan told, Filter filter, Path path)
        {
            Status status;
            bool found;
            uint[] costs = Given.Items(filter.Costs, "filter.Costs");
            told.Areas = filter.Areas;
            Room<Link> links = path.Links;
            Room<Turn> turns = path.Turns;
            do
            {
                status = Native.navd_view_plan(view, ref told, costs, Given.Length(filter.Costs), links.Items, links.Length, turns.Items,
                    turns.Length);
                found = status == Status.Ok || status == Status.Partial;
            } while (!links.Takes(found, told.Links) | !turns.Takes(found, told.Turns));
            path.Cost = told.Cost;
            path.First = told.First;
            return status;
        }

        /// <summary>Takes a path over into what the view shows: way.From is where its walker is now, path.First the polygon in which it was last. After
        /// Status.Cut its links are those that lead on, and it has no turns; after another end than this and Status.Ok it has neither.</summary>
        public Status CheckPath(Way way, Filter filter, Path path)
        {
            Status status;
            uint[] costs = Given.Items(filter.Costs, "filter.Costs");
            Room<Link> links = path.Links;
            Room<Turn> turns = path.Turns;
            var given = new Link[links.Count];
            Array.Copy(links.Items, given, links.Count);
            var told = new NavdKept();
            do
            {
                told = new NavdKept { Way = way, First = path.First, Areas = filter.Areas };
                Array.Copy(given, links.Items, given.Length);
                status = Native.navd_view_check_path(view, ref told, costs, Given.Length(filter.Costs), links.Items, Given.Length(given), turns.Items,
                    turns.Length);
            } while (!turns.Takes(status == Status.Ok, told.Turns));
            links.Takes(status == Status.Ok || status == Status.Cut, told.Links);
            path.Cost = told.Cost;
            path.First = told.First;
            return status;
        }

        /// <summary>Makes a path whole in what the view shows: way.From is where its walker is now, path.First the polygon in which it was last. At most
        /// `keep` of the links as which it leads on are used, and with `join` the way comes back to the last ones; the search ends after mostPolygons. Told:
        /// how many of the first links were used, and how many new ones are behind these. Status.Limit: each walk that mends it costs at least
        /// `seen`.</summary>
        public Status RepairPath(Way way, Filter filter, uint keep, bool join, uint mostPolygons, Path path, out int kept, out int bridge, out ulong seen)
        {
            Status status;
            bool found;
            uint[] costs = Given.Items(filter.Costs, "filter.Costs");
            Room<Link> links = path.Links;
            Room<Turn> turns = path.Turns;
            var given = new Link[links.Count];
            Array.Copy(links.Items, given, links.Count);
            var told = new NavdRepair();
            do
            {
                told = new NavdRepair { Way = way, First = path.First, Join = join ? 1u : 0u, Count = Given.Length(given), Keep = Given.Limit(keep),
                    MostPolygons = Given.Limit(mostPolygons), Areas = filter.Areas };
                Array.Copy(given, links.Items, given.Length);
                status = Native.navd_view_repair_path(view, ref told, costs, Given.Length(filter.Costs), links.Items, links.Length, turns.Items,
                    turns.Length);
                found = status == Status.Ok || status == Status.NoRoom;
            } while (!links.Takes(found, told.Links) | !turns.Takes(found, told.Turns));
            path.Cost = told.Cost;
            path.First = told.First;
            kept = checked((int)told.Kept.ToUInt64());
            bridge = checked((int)told.Bridge.ToUInt64());
            seen = told.Seen;
            return status;
        }

        /// <summary>The polygons within a cost of a place, by rising costs.</summary>
        public Status Flood(Point at, uint y, ulong mostCost, Filter filter, Room<Reached> reached)
        {
            return Flooded(at, y, 0, mostCost, filter, reached);
        }

        /// <summary>The same with the polygons from which a way leads to the place.</summary>
        public Status FloodBack(Point at, uint y, ulong mostCost, Filter filter, Room<Reached> reached)
        {
            return Flooded(at, y, 1, mostCost, filter, reached);
        }

        Status Flooded(Point at, uint y, uint back, ulong mostCost, Filter filter, Room<Reached> reached)
        {
            Status status;
            uint[] costs = Given.Items(filter.Costs, "filter.Costs");
            var told = new NavdFlood { At = at, Y = y, Back = back, Areas = filter.Areas, MostCost = mostCost };
            do
            {
                status = Native.navd_view_flood(view, ref told, costs, Given.Length(filter.Costs), reached.Items, reached.Length);
            } while (!reached.Takes(status == Status.Ok, told.Polygons));
            return status;
        }

        /// <summary>The nearest of many goals, by a way that costs at most mostCost. Status.Limit: each way to a goal costs at least told.Seen.</summary>
        public Status NearestGoal(Point at, uint y, Goal[] goals, ulong mostCost, Filter filter, out Nearest told, Room<Link> links)
        {
            Status status;
            uint[] costs = Given.Items(filter.Costs, "filter.Costs");
            Goal[] given = Given.Items(goals, "goals");
            told = new Nearest { At = at, Y = y, Areas = filter.Areas, MostCost = mostCost };
            do
            {
                status = Native.navd_view_nearest_goal(view, ref told, costs, Given.Length(filter.Costs), given, Given.Length(goals), links.Items,
                    links.Length);
            } while (!links.Takes(status == Status.Ok, told.Links));
            return status;
        }

        /// <summary>Where a walker on a path is.</summary>
        public Status FollowPath(Path path, ref Follower follower)
        {
            UIntPtr links = (UIntPtr)(uint)path.Links.Count, turns = (UIntPtr)(uint)path.Turns.Count;
            return Native.navd_view_follow_path(view, ref follower, path.Links.Items, links, path.Turns.Items, turns);
        }

        /// <summary>The nearest place. After Status.NoPlace none is in reach, and the place is as it was.</summary>
        public Status Nearest(Near near, ref Place place)
        {
            return Native.navd_view_nearest(view, ref near, ref place);
        }

        /// <summary>The highest floor at the point of a place in its polygon, left at place.Y.</summary>
        public Status Height(ref Place place)
        {
            return Native.navd_view_height(view, ref place);
        }

        /// <summary>Whether it is a place of what the view shows: Status.Ok or Status.NoPlace.</summary>
        public Status IsPlace(Place place)
        {
            return Native.navd_view_is_place(view, ref place);
        }

        /// <summary>The place that a number draws. After Status.Cut another number is to be drawn, after Status.NoPlace no cell has one of the areas,
        /// and after both the place is as it was.</summary>
        public Status RandomPlace(ulong areas, ulong draw, ref Place place)
        {
            return Native.navd_view_random_place(view, areas, draw, ref place);
        }

        /// <summary>A cheapest way between two places through a filter, within limits as those of Plan. After Status.NoStart or Status.NoGoal a place is
        /// none of the mesh.</summary>
        public Status FindWay(Place from, Place to, Filter filter, ulong mostCost, uint mostPolygons, PlaceWay way, out ulong seen)
        {
            Status status;
            bool found;
            uint[] costs = Given.Items(filter.Costs, "filter.Costs");
            Room<Link> links = way.Links;
            Room<Place> corners = way.Corners;
            var told = new NavdPlaceWay { From = from, To = to, Areas = filter.Areas, MostCost = mostCost, MostPolygons = Given.Limit(mostPolygons) };
            do
            {
                status = Native.navd_view_find_way(view, ref told, costs, Given.Length(filter.Costs), links.Items, links.Length, corners.Items,
                    corners.Length);
                found = status == Status.Ok;
            } while (!links.Takes(found, told.Found.Links) | !corners.Takes(found, told.Found.Corners));
            way.Cost = told.Found.Cost;
            seen = told.Found.Seen;
            return status;
        }

        /// <summary>The same between the places nearest to two points. After Status.NoStart or Status.NoGoal none is in reach.</summary>
        public Status FindWayNear(Near from, Near to, Filter filter, ulong mostCost, uint mostPolygons, PlaceWay way, out ulong seen)
        {
            Status status;
            bool found;
            uint[] costs = Given.Items(filter.Costs, "filter.Costs");
            Room<Link> links = way.Links;
            Room<Place> corners = way.Corners;
            var told = new NavdNearWay { From = from, To = to, Areas = filter.Areas, MostCost = mostCost, MostPolygons = Given.Limit(mostPolygons) };
            do
            {
                status = Native.navd_view_find_way_near(view, ref told, costs, Given.Length(filter.Costs), links.Items, links.Length, corners.Items,
                    corners.Length);
                found = status == Status.Ok;
            } while (!links.Takes(found, told.Found.Links) | !corners.Takes(found, told.Found.Corners));
            way.Cost = told.Found.Cost;
            seen = told.Found.Seen;
            return status;
        }

        /// <summary>The straight walk from a place toward a point.</summary>
        public Status CastRayFrom(Place from, Point to, ref Ray ray)
        {
            return Native.navd_view_cast_ray_from(view, ref from, ref to, ref ray);
        }

        /// <summary>Where a move from a place toward a point ends, along walls. It is for steps of a cell or so, in whole sixteenths: who moves less than one
        /// a step keeps the rest.</summary>
        public Status Slide(Place from, Point to, ulong areas, ref Place end)
        {
            return Native.navd_view_slide(view, ref from, ref to, areas, ref end);
        }

        /// <summary>A line between two places by its length, whatever areas cost. Status.Ok: no line is shorter by more than a 256th of a cell, or one part in
        /// 16384. Status.About: a line may be. The search ends after `most` records, of about 100 bytes each; a quick one passes over ends of portals that the
        /// mesh surrounds.</summary>
        public Status Shortest(Way way, uint most, bool quick, Line line)
        {
            Status status;
            bool told;
            var asked = new NavdLine { Way = way, Most = most, Quick = quick ? 1u : 0u };
            Room<Link> links = line.Links;
            Room<Turn> turns = line.Turns;
            do
            {
                status = Native.navd_view_shortest(view, ref asked, links.Items, links.Length, turns.Items, turns.Length);
                told = status == Status.Ok || status == Status.About;
            } while (!links.Takes(told, asked.Links) | !turns.Takes(told, asked.Turns));
            line.Upper = asked.Upper;
            line.Lower = asked.Lower;
            line.First = asked.First;
            line.Last = asked.Last;
            return status;
        }

        /// <summary>The wall nearest to a place. Status.NoPlace: there is none within the reach.</summary>
        public Status NearestWall(Around around, ref Wall wall)
        {
            return Native.navd_view_nearest_wall(view, ref around, ref wall);
        }

        /// <summary>All walls within the reach of a place.</summary>
        public Status Walls(Around around, Room<Wall> walls)
        {
            Status status;
            UIntPtr count;
            do
            {
                status = Native.navd_view_walls(view, ref around, walls.Items, walls.Length, out count);
            } while (!walls.Takes(status == Status.Ok, count));
            return status;
        }

        /// <summary>One step of a crowd, each agent by its Wish; who has less Left goes before others.</summary>
        public Status CrowdStep(Crowd rules, Agent[] agents)
        {
            return Native.navd_view_crowd_step(view, ref rules, Given.Items(agents, "agents"), Given.Length(agents));
        }

        /// <summary>Lets agents that waited for 3 seconds be slim, with a quarter of their full radius, and those that go and have room of their full
        /// size.</summary>
        public Status CrowdSlim(Crowd rules, Agent[] agents)
        {
            return Native.navd_view_crowd_slim(view, ref rules, Given.Items(agents, "agents"), Given.Length(agents));
        }

        /// <summary>One step of a crowd with wishes of the host's own: of moves, `counts` has how many are each agent's, which follow each other; an agent is
        /// granted the first of its own that is free. Who stands earlier in `order` goes before others.</summary>
        public Status CrowdGrant(Crowd rules, Agent[] agents, uint[] order, uint[] counts, Fine[] moves)
        {
            if (counts == null) throw new ArgumentNullException("counts");
            var first = new UIntPtr[counts.Length + 1];
            for (int i = 0; i < counts.Length; i++) first[i + 1] = (UIntPtr)((ulong)first[i] + counts[i]);
            return Native.navd_view_crowd_grant(view, ref rules, Given.Items(agents, "agents"), Given.Length(agents), Given.Items(order, "order"),
                Given.Length(order), first, Given.Length(first), Given.Items(moves, "moves"), Given.Length(moves));
        }

        /// <summary>Where an agent at a height stands beside others. After Status.Overlaps it is told too: it may enter, and then comes no nearer to
        /// those.</summary>
        public Status CrowdEnter(Agent[] agents, ref Agent agent, uint y)
        {
            return Native.navd_view_crowd_enter(view, Given.Items(agents, "agents"), Given.Length(agents), ref agent, y);
        }

        /// <summary>Where the links of a path lead an agent: its Wish and what is Left; so many as `link` says are then behind it. After Status.Cut a way is to
        /// be looked for anew.</summary>
        public Status Lead(ref Agent agent, Point goal, Room<Link> links, ref uint link)
        {
            var passed = (UIntPtr)link;
            Status status = Native.navd_view_lead(view, ref agent, ref goal, links.Items, (UIntPtr)(uint)links.Count, ref passed);
            link = (uint)passed;
            return status;
        }

        public Status Count(out Shown shown)
        {
            return Native.navd_view_count(view, out shown);
        }
    }

    /// <summary>A level with a row for each of its obstacles, whose id stays. What is shown changes in Update alone.</summary>
    public sealed class Registry : IDisposable
    {
        internal readonly RegistryHandle registry;

        public Registry()
        {
            registry = new RegistryHandle();
        }

        internal Registry(RegistryHandle handle)
        {
            registry = handle;
        }

        /// <summary>The level goes over into it, and holds nothing then. Status.Busy: it has obstacles.</summary>
        public Status Begin(Level level)
        {
            return Native.navd_registry_begin(registry, level.level);
        }

        public Status Add(Solid solid, ulong user, out ulong id)
        {
            return Native.navd_registry_add(registry, ref solid, user, out id);
        }

        public Status Move(ulong id, Solid solid)
        {
            return Native.navd_registry_move(registry, id, ref solid);
        }

        public Status Enable(ulong id, bool enabled)
        {
            return Native.navd_registry_enable(registry, id, enabled ? 1u : 0u);
        }

        public Status Mark(ulong id, ulong user)
        {
            return Native.navd_registry_mark(registry, id, user);
        }

        public Status Remove(ulong id)
        {
            return Native.navd_registry_remove(registry, id);
        }

        public Status Rows(Room<Row> rows)
        {
            Status status;
            UIntPtr count;
            do
            {
                status = Native.navd_registry_rows(registry, rows.Items, rows.Length, out count);
            } while (!rows.Takes(status == Status.Ok, count));
            return status;
        }

        public Status Update(uint most, out Updated updated)
        {
            return Native.navd_registry_update(registry, most, out updated);
        }

        public Status Claim(Job job, out uint tile)
        {
            return Native.navd_registry_claim(registry, job.job, out tile);
        }

        public Status Submit(Job job)
        {
            return Native.navd_registry_submit(registry, job.job);
        }

        public Status PutBack(Job job)
        {
            return Native.navd_registry_put_back(registry, job.job);
        }

        public Status PutBackAll()
        {
            return Native.navd_registry_put_back_all(registry);
        }

        public Status Save(Room<byte> bytes)
        {
            Status status;
            UIntPtr length;
            do
            {
                status = Native.navd_registry_save(registry, bytes.Items, bytes.Length, out length);
            } while (!bytes.Takes(status == Status.Ok || status == Status.NoRoom, length));
            return status;
        }

        /// <summary>Status.NotSaved: no save wrote these bytes. Status.Foreign: it was saved of another field.</summary>
        public Status Restore(byte[] bytes)
        {
            byte[] items = Given.Items(bytes, "bytes");
            return Native.navd_registry_restore(registry, items, Given.Length(bytes));
        }

        public void Dispose()
        {
            registry.Dispose();
        }
    }

    /// <summary>Levels of several kinds of agents over one ground, with one history, by their numbers from 0.</summary>
    public sealed class Kinds : IDisposable
    {
        internal readonly KindsHandle kinds = new KindsHandle();

        /// <summary>Spans by z, then x, then from the bottom up. Costs are 64 numbers by area, or none: each area costs 1.</summary>
        public Status Open(Ground ground, Kind[] kind, uint[] costs, Span[] spans)
        {
            Kind[] kindItems = Given.Items(kind, "kind");
            uint[] costItems = Given.Items(costs, "costs");
            Span[] spanItems = Given.Items(spans, "spans");
            return Native.navd_kinds_open(kinds, ref ground, kindItems, Given.Length(kind), costItems, Given.Length(costs), spanItems,
                Given.Length(spans));
        }

        public Status AddBlock(Block block, uint area, out uint entry)
        {
            return Native.navd_kinds_add_block(kinds, ref block, area, out entry);
        }

        public Status AddCylinder(Cylinder cylinder, uint area, out uint entry)
        {
            return Native.navd_kinds_add_cylinder(kinds, ref cylinder, area, out entry);
        }

        public Status AddPrism(Prism prism, uint area, out uint entry)
        {
            return Native.navd_kinds_add_prism(kinds, ref prism, area, out entry);
        }

        public Status AddDisc(Disc disc, uint area, out uint entry)
        {
            return Native.navd_kinds_add_disc(kinds, ref disc, area, out entry);
        }

        public Status Remove(uint number, out uint entry)
        {
            return Native.navd_kinds_remove(kinds, number, out entry);
        }

        public Status Settle(out uint published)
        {
            return Native.navd_kinds_settle(kinds, out published);
        }

        public Status Aim(out uint target)
        {
            return Native.navd_kinds_aim(kinds, out target);
        }

        public Status Step(out uint kind, out uint tile)
        {
            return Native.navd_kinds_step(kinds, out kind, out tile);
        }

        public Status Publish(out uint kind, out uint number)
        {
            return Native.navd_kinds_publish(kinds, out kind, out number);
        }

        public Status Claim(Job job, out uint kind, out uint tile)
        {
            return Native.navd_kinds_claim(kinds, job.job, out kind, out tile);
        }

        public Status Submit(uint kind, Job job)
        {
            return Native.navd_kinds_submit(kinds, kind, job.job);
        }

        public Status PutBack(uint kind, Job job)
        {
            return Native.navd_kinds_put_back(kinds, kind, job.job);
        }

        public Status PutBackAll()
        {
            return Native.navd_kinds_put_back_all(kinds);
        }

        /// <summary>Status.NoRoom does not come: nothing was done then, and the room is made.</summary>
        public Status Renew(Room<uint> numbers)
        {
            Status status;
            UIntPtr count;
            do
            {
                status = Native.navd_kinds_renew(kinds, numbers.Items, numbers.Length, out count);
            } while (!numbers.Takes(status == Status.Ok || status == Status.NoRoom, count));
            return status;
        }

        /// <summary>Other spans in the columns of a rectangle, in the order of Open, or none.</summary>
        public Status ChangeGround(Columns columns, Span[] spans)
        {
            return Native.navd_kinds_change_ground(kinds, ref columns, Given.Items(spans, "spans"), Given.Length(spans));
        }

        public Status Count(uint kind, out Counts counts)
        {
            return Native.navd_kinds_count(kinds, kind, out counts);
        }

        public void Dispose()
        {
            kinds.Dispose();
        }
    }

    public sealed class Job : IDisposable
    {
        internal readonly JobHandle job = new JobHandle();

        public Status Build()
        {
            return Native.navd_build(job);
        }

        public void Dispose()
        {
            job.Dispose();
        }
    }
}
