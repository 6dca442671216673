// NavdWorld.cs: worlds of navd in a game's own numbers, by P/Invoke, beside Navd.cs. C# 7, for .NET, Mono and Unity, without unsafe code.
//
//     Navd.World world;                                          // a `using` or Dispose ends it
//     Navd.Snapshot snapshot;                                    // one for each thread that asks
//     Navd.Problem problem;
//     ulong door;
//     var route = new Navd.Route();                              // keeps its memory from search to search
//     var def = new Navd.WorldDef { CellSize = 0.25f };          // what is not said here is Recast's usual
//     if (Navd.World.Create(def, vertices, indices, null, out world, out problem) != Navd.Status.Ok) Tell(problem.Text);
//     world.Add(Navd.Shape.Box(new Navd.Vec3(12, 1.5f, 3), new Navd.Vec3(0.1f, 1.5f, 1), 0.3f), 0, out door);
//     world.Update(4);                                           // once a frame: builds up to four tiles
//     Navd.Snapshot.Create(world, 0, out snapshot);              // later snapshot.Refresh(world)
//     if (snapshot.FindPath(from, to, route) == Navd.Status.Ok) Follow(route.Corners);
//
// A method is the call of include/navd_world.h with its name, which says what it does, its units and limits, and its ends. Lengths are the game's, and y is
// up; angles are in radians. The shared object of a release has these calls, and hosts/c/Makefile makes one. Where the host is newer than the library a call
// may end with Worlds.BadStruct.
//
// Threads. A world, a snapshot and a route are each in one call at a time, but Snapshot.Create and Snapshot.Refresh may be called of a world at any time and
// in any thread. What was not disposed of is ended by the thread of the finalizers. After Dispose a call throws ObjectDisposedException.
//
// Garbage. A question makes none once its route has room for the corners; a prism and a filter with costs pin their arrays for the call.
using System;
using System.Runtime.InteropServices;
using System.Text;

namespace Navd
{
    // == The structs of include/navd_world.h, field for field ==

    /// <summary>A point of a game; Y points up.</summary>
    [StructLayout(LayoutKind.Sequential)]
    public struct Vec3
    {
        public float X, Y, Z;

        public Vec3(float x, float y, float z)
        {
            X = x;
            Y = y;
            Z = z;
        }
    }

    [StructLayout(LayoutKind.Sequential)]
    internal struct NavdWorldDef
    {
        internal uint Size;
        internal float CellSize, CellHeight, AgentRadius, AgentHeight, AgentClimb;
        internal uint MaxSlope;
        internal float MaxError;
        internal uint TileCells, MaxObstacles, Flags;
        internal Vec3 Min, Max;
        internal IntPtr AreaCosts;
    }

    [StructLayout(LayoutKind.Sequential)]
    internal struct NavdTriangleMesh
    {
        internal uint Size;
        internal IntPtr Vertices;
        internal UIntPtr VertexCount;
        internal IntPtr Indices;
        internal UIntPtr TriangleCount;
        internal IntPtr Areas;
    }

    [StructLayout(LayoutKind.Sequential)]
    internal struct NavdProblem
    {
        internal uint Size;
        internal UIntPtr Triangle;
        [MarshalAs(UnmanagedType.ByValArray, SizeConst = 160)]
        internal byte[] Text;
    }

    [StructLayout(LayoutKind.Sequential)]
    internal struct NavdShape
    {
        internal uint Size, Kind, Area;
        internal Vec3 Center, Half;
        internal float Yaw;
        internal IntPtr Corners;
        internal uint CornerCount;
        internal float MinY, MaxY;
    }

    [StructLayout(LayoutKind.Sequential)]
    internal struct NavdProgress
    {
        internal uint Size, TilesBuilt, Published, Pending;
        internal ulong Version;
    }

    [StructLayout(LayoutKind.Sequential)]
    internal struct NavdFilter
    {
        internal uint Size, Partial;
        internal ulong Areas;
        internal IntPtr AreaCosts;
        internal double MaxCost;
        internal UIntPtr MaxPolygons;
    }

    [StructLayout(LayoutKind.Sequential)]
    internal struct NavdHit
    {
        internal uint Size, Hit;
        internal float Fraction;
        internal Vec3 At, WallFrom, WallTo;
    }

    /// <summary>A corner of a route: where it is, and 1 for the first one, 2 for the last one, or 0.</summary>
    [StructLayout(LayoutKind.Sequential)]
    public struct RouteCorner
    {
        public Vec3 At;
        public uint Flags;
    }

    internal static class NativeWorld
    {
        const string Library = "navd";

        [DllImport(Library)]
        internal static extern IntPtr navd_status_text(Status status);
        [DllImport(Library)]
        internal static extern IntPtr navd_status_name(Status status);
        [DllImport(Library)]
        internal static extern Status navd_world_create(ref NavdWorldDef def, ref NavdTriangleMesh mesh, out WorldHandle world, ref NavdProblem problem);
        [DllImport(Library)]
        internal static extern void navd_world_destroy(IntPtr world);
        [DllImport(Library)]
        internal static extern IntPtr navd_world_mesh(WorldHandle world);
        [DllImport(Library)]
        internal static extern IntPtr navd_world_registry(WorldHandle world);
        [DllImport(Library)]
        internal static extern Status navd_world_add(WorldHandle world, ref NavdShape shape, ulong user, out ulong id);
        [DllImport(Library)]
        internal static extern Status navd_world_move(WorldHandle world, ulong id, ref NavdShape shape);
        [DllImport(Library)]
        internal static extern Status navd_world_set_enabled(WorldHandle world, ulong id, int enabled);
        [DllImport(Library)]
        internal static extern Status navd_world_set_user(WorldHandle world, ulong id, ulong user);
        [DllImport(Library)]
        internal static extern Status navd_world_remove(WorldHandle world, ulong id);
        [DllImport(Library)]
        internal static extern Status navd_world_obstacles(WorldHandle world, [Out] Row[] rows, UIntPtr room, out UIntPtr count);
        [DllImport(Library)]
        internal static extern Status navd_world_save(WorldHandle world, [Out] byte[] bytes, UIntPtr room, out UIntPtr length);
        [DllImport(Library)]
        internal static extern Status navd_world_restore(WorldHandle world, byte[] bytes, UIntPtr length);
        [DllImport(Library)]
        internal static extern Status navd_world_update(WorldHandle world, uint maxTiles, ref NavdProgress progress);
        [DllImport(Library)]
        internal static extern Status navd_snapshot_create(WorldHandle world, uint agent, out SnapshotHandle snapshot);
        [DllImport(Library)]
        internal static extern Status navd_snapshot_refresh(SnapshotHandle snapshot, WorldHandle world);
        [DllImport(Library)]
        internal static extern ulong navd_snapshot_version(SnapshotHandle snapshot);
        [DllImport(Library)]
        internal static extern IntPtr navd_snapshot_view(SnapshotHandle snapshot);
        [DllImport(Library)]
        internal static extern void navd_snapshot_destroy(IntPtr snapshot);
        [DllImport(Library)]
        internal static extern Status navd_snapshot_nearest(SnapshotHandle snapshot, ref NavdFilter filter, ref Vec3 at, float reach, float height,
            ref Vec3 place);
        [DllImport(Library)]
        internal static extern Status navd_snapshot_height(SnapshotHandle snapshot, ref Vec3 at, ref float y);
        [DllImport(Library)]
        internal static extern Status navd_snapshot_raycast(SnapshotHandle snapshot, ref Vec3 from, ref Vec3 to, ref NavdHit hit);
        [DllImport(Library)]
        internal static extern Status navd_route_create(out RouteHandle route);
        [DllImport(Library)]
        internal static extern void navd_route_destroy(IntPtr route);
        [DllImport(Library)]
        internal static extern Status navd_snapshot_find_path(SnapshotHandle snapshot, ref NavdFilter filter, ref Vec3 from, ref Vec3 to, RouteHandle route);
        [DllImport(Library)]
        internal static extern UIntPtr navd_route_corners(RouteHandle route, out IntPtr corners);
        [DllImport(Library)]
        internal static extern double navd_route_cost(RouteHandle route);
        [DllImport(Library)]
        internal static extern ulong navd_route_version(RouteHandle route);
    }

    // == Owners of addresses ==

    internal abstract class HeldAddress : SafeHandle
    {
        protected HeldAddress() : base(IntPtr.Zero, true)
        {
        }

        public override bool IsInvalid
        {
            get { return handle == IntPtr.Zero; }
        }
    }

    internal sealed class WorldHandle : HeldAddress
    {
        protected override bool ReleaseHandle()
        {
            NativeWorld.navd_world_destroy(handle);
            return true;
        }
    }

    internal sealed class SnapshotHandle : HeldAddress
    {
        protected override bool ReleaseHandle()
        {
            NativeWorld.navd_snapshot_destroy(handle);
            return true;
        }
    }

    /// <summary>The view that is in a snapshot, which lives on as long.</summary>
    internal sealed class SnapshotViewHandle : ViewHandle
    {
        readonly SnapshotHandle owner;

        internal SnapshotViewHandle(SnapshotHandle owner) : base(NativeWorld.navd_snapshot_view(owner))
        {
            bool isHeld = false;
            owner.DangerousAddRef(ref isHeld);
            this.owner = owner;
        }

        protected override bool ReleaseHandle()
        {
            owner.DangerousRelease();
            return true;
        }
    }

    /// <summary>The registry that is in a world, which lives on as long.</summary>
    internal sealed class WorldRegistryHandle : RegistryHandle
    {
        readonly WorldHandle owner;

        internal WorldRegistryHandle(WorldHandle owner) : base(NativeWorld.navd_world_registry(owner))
        {
            bool isHeld = false;
            owner.DangerousAddRef(ref isHeld);
            this.owner = owner;
        }

        protected override bool ReleaseHandle()
        {
            owner.DangerousRelease();
            return true;
        }
    }

    internal sealed class RouteHandle : HeldAddress
    {
        protected override bool ReleaseHandle()
        {
            NativeWorld.navd_route_destroy(handle);
            return true;
        }
    }

    /// <summary>An array that stays where it is while a call reads it; an IntPtr of 0 where there is none, or it is empty.</summary>
    internal struct Pinned : IDisposable
    {
        GCHandle held;

        internal Pinned(Array items)
        {
            held = items == null || items.Length == 0 ? new GCHandle() : GCHandle.Alloc(items, GCHandleType.Pinned);
        }

        internal IntPtr At
        {
            get { return held.IsAllocated ? held.AddrOfPinnedObject() : IntPtr.Zero; }
        }

        public void Dispose()
        {
            if (held.IsAllocated) held.Free();
        }
    }

    // == What is said, and what is told ==

    public static class Worlds
    {
        /// <summary>The library does not know a struct, or what it says: it is older than this file.</summary>
        public const Status BadStruct = (Status)23;

        public const uint AllTiles = uint.MaxValue;

        /// <summary>A status as a sentence: "no walk joins the two places".</summary>
        public static string Text(this Status status)
        {
            return Marshal.PtrToStringAnsi(NativeWorld.navd_status_text(status));
        }

        /// <summary>A status by its name in the headers: "NAVD_NO_PATH".</summary>
        public static string Name(this Status status)
        {
            return Marshal.PtrToStringAnsi(NativeWorld.navd_status_name(status));
        }

        internal static uint SizeOf<T>()
        {
            return (uint)Marshal.SizeOf(typeof(T));
        }
    }

    [Flags]
    public enum WorldFlags : uint
    {
        None = 0,
        /// <summary>A triangle may be walked on whichever side of it is up.</summary>
        BothSides = 1,
        /// <summary>Polygons are strips of cells: quickly built, and many.</summary>
        Strips = 2,
        /// <summary>Agents keep their radius from the ground's edges and walls, and not from obstacles.</summary>
        NoClearance = 4
    }

    /// <summary>What a world is made with, in the game's unit, but for the slope in degrees, the error and the tile in cells.</summary>
    public sealed class WorldDef
    {
        public float CellSize = 0.3f, CellHeight = 0.2f, AgentRadius = 0.6f, AgentHeight = 2, AgentClimb = 0.9f;
        public uint MaxSlope = 45;
        public float MaxError = 0.7f;
        public uint TileCells = 48, MaxObstacles = 1024;
        public WorldFlags Flags;
        /// <summary>What the world reaches over; where both are 0 just as far as its triangles.</summary>
        public Vec3 Min, Max;
        /// <summary>What a length costs on each of the 64 areas; null: 1 each.</summary>
        public float[] AreaCosts;
    }

    /// <summary>Why a world was not made, as a sentence, and which triangle is at fault, if one is.</summary>
    public struct Problem
    {
        public string Text;
        public long Triangle;
    }

    /// <summary>A box, a cylinder or a prism. With an Area of 0 it stops agents, with 1 to 63 it gives that area.</summary>
    public struct Shape
    {
        public uint Kind, Area;
        public Vec3 Center, Half;
        public float Yaw;
        public float[] Corners;
        public float MinY, MaxY;

        /// <summary>A centre, half the sides, and a yaw from x to z.</summary>
        public static Shape Box(Vec3 center, Vec3 half, float yaw = 0, uint area = 0)
        {
            return new Shape { Kind = 0, Area = area, Center = center, Half = half, Yaw = yaw };
        }

        /// <summary>A centre, a radius, and half the height.</summary>
        public static Shape Cylinder(Vec3 center, float radius, float halfHeight, uint area = 0)
        {
            return new Shape { Kind = 1, Area = area, Center = center, Half = new Vec3(radius, halfHeight, radius) };
        }

        /// <summary>x and z of 3 to 6 corners, convex, one way round or the other, and heights.</summary>
        public static Shape Prism(float[] corners, float minY, float maxY, uint area = 0)
        {
            return new Shape { Kind = 2, Area = area, Corners = corners, MinY = minY, MaxY = maxY };
        }

        internal NavdShape Told(IntPtr corners)
        {
            int numbers = corners == IntPtr.Zero ? 0 : Corners.Length;
            return new NavdShape
            {
                Size = Worlds.SizeOf<NavdShape>(), Kind = Kind, Area = Area, Center = Center, Half = Half, Yaw = Yaw, Corners = corners,
                CornerCount = numbers % 2 == 0 ? (uint)numbers / 2 : 0, MinY = MinY, MaxY = MaxY
            };
        }
    }

    /// <summary>What an update did: the tiles that it built, whether something new is shown, whether some of what was asked for is not shown yet, and the
    /// version, which never falls.</summary>
    public struct Progress
    {
        public uint TilesBuilt;
        public bool Published, Pending;
        public ulong Version;
    }

    /// <summary>What a question goes by.</summary>
    public sealed class WorldFilter
    {
        /// <summary>The areas that may be entered, bit a for area a.</summary>
        public ulong Areas = ulong.MaxValue;
        /// <summary>What a length costs on each of the 64 areas, for this question; null: as in the world.</summary>
        public float[] AreaCosts;
        /// <summary>No way is looked at that costs more, nor more polygons than this; 0: no limit.</summary>
        public double MaxCost;
        public uint MaxPolygons;
        /// <summary>Where no way leads to the goal, the way to the nearest place is told.</summary>
        public bool Partial;

        internal static readonly WorldFilter Usual = new WorldFilter();

        internal bool HasCosts
        {
            get { return AreaCosts == null || AreaCosts.Length == 64; }
        }

        internal NavdFilter Told(IntPtr costs)
        {
            return new NavdFilter
            {
                Size = Worlds.SizeOf<NavdFilter>(), Partial = Partial ? 1u : 0u, Areas = Areas, AreaCosts = costs, MaxCost = MaxCost,
                MaxPolygons = (UIntPtr)MaxPolygons
            };
        }
    }

    /// <summary>Where a straight walk ends: whether at a wall, the fraction of the way up to there, the place, and the ends of the wall, which else are the
    /// place.</summary>
    public struct Hit
    {
        public bool IsHit;
        public float Fraction;
        public Vec3 At, WallFrom, WallTo;
    }

    // == Worlds ==

    /// <summary>A world of triangles, with obstacles by ids that stay. What is shown changes in Update alone.</summary>
    public sealed class World : IDisposable
    {
        internal readonly WorldHandle world;

        World(WorldHandle made)
        {
            world = made;
        }

        /// <summary>Three numbers of `vertices` a vertex, three of `indices` a triangle, and an area for each triangle, or null. Where it is not made, `world`
        /// is null.</summary>
        public static Status Create(WorldDef def, float[] vertices, uint[] indices, byte[] areas, out World world, out Problem problem)
        {
            world = null;
            problem = new Problem { Text = "vertices and indices come in threes, and areas one for each triangle" };
            if (vertices.Length % 3 != 0 || indices.Length % 3 != 0 || (areas != null && areas.Length != indices.Length / 3)) return Status.OutOfRange;
            problem.Text = "area_costs are 64 numbers";
            if (def.AreaCosts != null && def.AreaCosts.Length != 64) return Status.OutOfRange;
            WorldHandle made;
            var told = new NavdProblem { Size = Worlds.SizeOf<NavdProblem>(), Text = new byte[160] };
            Status status = Make(def, vertices, indices, areas, out made, ref told);
            problem = new Problem { Text = Encoding.ASCII.GetString(told.Text).TrimEnd('\0'), Triangle = checked((long)told.Triangle.ToUInt64()) };
            if (status == Status.Ok) world = new World(made);
            return status;
        }

        static Status Make(WorldDef def, float[] vertices, uint[] indices, byte[] areas, out WorldHandle made, ref NavdProblem problem)
        {
            using (Pinned costs = new Pinned(def.AreaCosts), points = new Pinned(vertices), corners = new Pinned(indices), kinds = new Pinned(areas))
            {
                var told = new NavdWorldDef
                {
                    Size = Worlds.SizeOf<NavdWorldDef>(), CellSize = def.CellSize, CellHeight = def.CellHeight, AgentRadius = def.AgentRadius,
                    AgentHeight = def.AgentHeight, AgentClimb = def.AgentClimb, MaxSlope = def.MaxSlope, MaxError = def.MaxError, TileCells = def.TileCells,
                    MaxObstacles = def.MaxObstacles, Flags = (uint)def.Flags, Min = def.Min, Max = def.Max, AreaCosts = costs.At
                };
                var mesh = new NavdTriangleMesh
                {
                    Size = Worlds.SizeOf<NavdTriangleMesh>(), Vertices = points.At, VertexCount = (UIntPtr)(uint)(vertices.Length / 3), Indices = corners.At,
                    TriangleCount = (UIntPtr)(uint)(indices.Length / 3), Areas = kinds.At
                };
                return NativeWorld.navd_world_create(ref told, ref mesh, out made, ref problem);
            }
        }

        /// <summary>What the numbers became, in cells and height units.</summary>
        public Mesh Mesh
        {
            get
            {
                var told = (Mesh)Marshal.PtrToStructure(NativeWorld.navd_world_mesh(world), typeof(Mesh));
                GC.KeepAlive(this);
                return told;
            }
        }

        /// <summary>Its registry, for jobs and what else Navd.cs has. It is disposed of by itself, and is in no call beside one of the world.</summary>
        public Registry OpenRegistry()
        {
            return new Registry(new WorldRegistryHandle(world));
        }

        public Status Add(Shape shape, ulong user, out ulong id)
        {
            using (var corners = new Pinned(shape.Corners))
            {
                NavdShape told = shape.Told(corners.At);
                return NativeWorld.navd_world_add(world, ref told, user, out id);
            }
        }

        public Status Move(ulong id, Shape shape)
        {
            using (var corners = new Pinned(shape.Corners))
            {
                NavdShape told = shape.Told(corners.At);
                return NativeWorld.navd_world_move(world, id, ref told);
            }
        }

        /// <summary>Status.Same: it was so.</summary>
        public Status SetEnabled(ulong id, bool enabled)
        {
            return NativeWorld.navd_world_set_enabled(world, id, enabled ? 1 : 0);
        }

        public Status SetUser(ulong id, ulong user)
        {
            return NativeWorld.navd_world_set_user(world, id, user);
        }

        public Status Remove(ulong id)
        {
            return NativeWorld.navd_world_remove(world, id);
        }

        /// <summary>The obstacles by rising ids, in sixteenths of a cell and height units.</summary>
        public Status Obstacles(Room<Row> rows)
        {
            Status status;
            UIntPtr count;
            do
            {
                status = NativeWorld.navd_world_obstacles(world, rows.Items, rows.Length, out count);
            } while (!rows.Takes(status == Status.Ok, count));
            return status;
        }

        public Status Save(Room<byte> bytes)
        {
            Status status;
            UIntPtr length;
            do
            {
                status = NativeWorld.navd_world_save(world, bytes.Items, bytes.Length, out length);
            } while (!bytes.Takes(status == Status.Ok || status == Status.NoRoom, length));
            return status;
        }

        /// <summary>What was saved of a world of the same cells. Status.NotSaved: no save wrote these bytes. Status.Foreign: it was another one.</summary>
        public Status Restore(byte[] bytes)
        {
            byte[] items = Given.Items(bytes, "bytes");
            return NativeWorld.navd_world_restore(world, items, Given.Length(bytes));
        }

        public Status Update(uint maxTiles, out Progress progress)
        {
            var told = new NavdProgress { Size = Worlds.SizeOf<NavdProgress>() };
            Status status = NativeWorld.navd_world_update(world, maxTiles, ref told);
            progress = new Progress { TilesBuilt = told.TilesBuilt, Published = told.Published != 0, Pending = told.Pending != 0, Version = told.Version };
            return status;
        }

        public Status Update(uint maxTiles = Worlds.AllTiles)
        {
            Progress progress;
            return Update(maxTiles, out progress);
        }

        public void Dispose()
        {
            world.Dispose();
        }
    }

    /// <summary>A path that was found. One that is used again keeps its memory.</summary>
    public sealed class Route : IDisposable
    {
        internal RouteHandle route;
        readonly Room<RouteCorner> corners = new Room<RouteCorner>();
        int[] words = new int[64];

        [StructLayout(LayoutKind.Explicit)]
        struct Word
        {
            [FieldOffset(0)]
            internal int Whole;
            [FieldOffset(0)]
            internal float Number;
        }

        /// <summary>Its corners, from the first to the last, which are good until the route's next search; none where none was found.</summary>
        public Room<RouteCorner> Corners
        {
            get { return corners; }
        }

        /// <summary>What the way costs, in the game's unit times the costs of its areas.</summary>
        public double Cost
        {
            get { return Holds ? NativeWorld.navd_route_cost(route) : 0; }
        }

        /// <summary>The version of the snapshot in which it was found.</summary>
        public ulong Version
        {
            get { return Holds ? NativeWorld.navd_route_version(route) : 0; }
        }

        bool Holds
        {
            get { return route != null && !route.IsInvalid; }
        }

        internal Status Make()
        {
            return Holds ? Status.Ok : NativeWorld.navd_route_create(out route);
        }

        float Number(int place)
        {
            return new Word { Whole = words[place] }.Number;
        }

        /// <summary>Copies the corners of a search that has just ended.</summary>
        internal void Take()
        {
            IntPtr at;
            UIntPtr count = NativeWorld.navd_route_corners(route, out at);
            while (!corners.Takes(true, count))
            {
            }
            if (words.Length < 4 * corners.Count) words = new int[4 * corners.Items.Length];
            if (corners.Count > 0) Marshal.Copy(at, words, 0, 4 * corners.Count);
            for (int i = 0; i < corners.Count; i++)
                corners.Items[i] = new RouteCorner { At = new Vec3(Number(4 * i), Number(4 * i + 1), Number(4 * i + 2)), Flags = (uint)words[4 * i + 3] };
        }

        public void Dispose()
        {
            if (route != null) route.Dispose();
        }
    }

    /// <summary>What a world showed when the snapshot was last refreshed. It stays good once the world is ended.</summary>
    public sealed class Snapshot : IDisposable
    {
        readonly SnapshotHandle snapshot;

        Snapshot(SnapshotHandle made)
        {
            snapshot = made;
        }

        /// <summary>Of an agent of the world: 0, which is the only one so far. Where it is not made, `snapshot` is null.</summary>
        public static Status Create(World world, uint agent, out Snapshot snapshot)
        {
            SnapshotHandle made;
            Status status = NativeWorld.navd_snapshot_create(world.world, agent, out made);
            snapshot = status == Status.Ok ? new Snapshot(made) : null;
            return status;
        }

        /// <summary>Of the world of which it was created. Status.Same: nothing newer is shown.</summary>
        public Status Refresh(World world)
        {
            return NativeWorld.navd_snapshot_refresh(snapshot, world.world);
        }

        public ulong Version
        {
            get { return NativeWorld.navd_snapshot_version(snapshot); }
        }

        /// <summary>Its view, for all questions of Navd.cs, in sixteenths of a cell and height units. It is disposed of by itself, and is in no call beside one
        /// of the snapshot.</summary>
        public View OpenView()
        {
            return new View(new SnapshotViewHandle(snapshot));
        }

        public Status FindPath(WorldFilter filter, Vec3 from, Vec3 to, Route route)
        {
            Status status = route.Make();
            if (status != Status.Ok) return status;
            if (!filter.HasCosts) return Status.OutOfRange;
            using (var costs = new Pinned(filter.AreaCosts))
            {
                NavdFilter told = filter.Told(costs.At);
                status = NativeWorld.navd_snapshot_find_path(snapshot, ref told, ref from, ref to, route.route);
            }
            route.Take();
            return status;
        }

        public Status FindPath(Vec3 from, Vec3 to, Route route)
        {
            return FindPath(WorldFilter.Usual, from, to, route);
        }

        public Status Nearest(WorldFilter filter, Vec3 at, float reach, float height, ref Vec3 place)
        {
            if (!filter.HasCosts) return Status.OutOfRange;
            using (var costs = new Pinned(filter.AreaCosts))
            {
                NavdFilter told = filter.Told(costs.At);
                return NativeWorld.navd_snapshot_nearest(snapshot, ref told, ref at, reach, height, ref place);
            }
        }

        public Status Nearest(Vec3 at, float reach, float height, ref Vec3 place)
        {
            return Nearest(WorldFilter.Usual, at, reach, height, ref place);
        }

        public Status Height(Vec3 at, ref float y)
        {
            return NativeWorld.navd_snapshot_height(snapshot, ref at, ref y);
        }

        public Status Raycast(Vec3 from, Vec3 to, out Hit hit)
        {
            var told = new NavdHit { Size = Worlds.SizeOf<NavdHit>() };
            Status status = NativeWorld.navd_snapshot_raycast(snapshot, ref from, ref to, ref told);
            hit = new Hit { IsHit = told.Hit != 0, Fraction = told.Fraction, At = told.At, WallFrom = told.WallFrom, WallTo = told.WallTo };
            return status;
        }

        public void Dispose()
        {
            snapshot.Dispose();
        }
    }
}
