// hosts/world/doors.c over NavdWorld.cs: a game's loop in a hall with a wall across it, two doors and a ramp. What it writes is hosts/world/doors.out.
//
//     mono doors.exe           plays the loop
//     mono doors.exe more      and then what the loop does not call
//     mono doors.exe layouts   the sizes of the structs, and where their fields lie, as hosts/world/layouts.c writes them
using System;
using System.Globalization;
using System.Linq;
using System.Reflection;
using System.Runtime.InteropServices;
using System.Text.RegularExpressions;
using System.Threading;
using Navd;

internal static class Doors
{
    const int Frames = 40;
    static readonly Vec3 Start = new Vec3(2, 0, 3), Goal = new Vec3(22, 2, 9);

    // A floor of 16 m by 12 m, a ramp of 4 m up to 2 m, a floor up there, and a wall across at 12 m in three pieces of 3 m.
    static readonly float[] Vertices =
    {
        0, 0, 0, 0, 0, 12, 16, 0, 0, 16, 0, 12, 20, 2, 0, 20, 2, 12, 24, 2, 0, 24, 2, 12, 12, 0, 0, 12, 0, 2, 12, 3, 0, 12, 3, 2,
        12, 0, 4, 12, 0, 8, 12, 3, 4, 12, 3, 8, 12, 0, 10, 12, 0, 12, 12, 3, 10, 12, 3, 12
    };

    static readonly uint[] Quads = { 0, 2, 4, 8, 12, 16 }, Halves = { 0, 1, 2, 2, 1, 3 };
    static readonly uint[] Triangles = Quads.SelectMany(first => Halves.Select(next => first + next)).ToArray();

    static void Want(Status status, string what)
    {
        if (status != Status.Ok) throw new InvalidOperationException(what + ": " + status.Text());
    }

    static void Tell(string form, params object[] words)
    {
        Console.Write(string.Format(CultureInfo.InvariantCulture, form, words));
    }

    static WorldDef Definition()
    {
        return new WorldDef { CellSize = 0.25f, AgentRadius = 0.4f, TileCells = 24 };
    }

    static Shape Door(float z, float yaw = 0)
    {
        return Shape.Box(new Vec3(12 - (float)Math.Sin(yaw), 1.5f, z - 1 + (float)Math.Cos(yaw)), new Vec3(0.1f, 1.5f, 1), yaw);
    }

    static void TellPoint(Vec3 at, int digits)
    {
        string form = "F" + digits;
        Tell(" ({0} {1} {2})", Written(at.X, form), Written(at.Y, form), Written(at.Z, form));
    }

    static string Written(double number, string form)
    {
        return number.ToString(form, CultureInfo.InvariantCulture);
    }

    static void TellCorners(Route route, int digits)
    {
        for (int i = 0; i < route.Corners.Count; i++) TellPoint(route.Corners[i].At, digits);
        Tell("\n");
    }

    static void TellWay(Snapshot snapshot, Route route)
    {
        Status status = snapshot.FindPath(Start, Goal, route);
        Tell("version {0}: {1}", snapshot.Version, status == Status.Ok ? "a way" : status.Text());
        TellCorners(route, 2);
    }

    static void TellObstacles(World world)
    {
        var rows = new Room<Row>();
        Want(world.Obstacles(rows), "the obstacles");
        Tell("obstacles:");
        for (int i = 0; i < rows.Count; i++)
            Tell(" {0} of {1} {2} kind {3} area {4},", rows[i].Id, rows[i].User, rows[i].Enabled != 0 ? "on" : "off", rows[i].Solid.Kind, rows[i].Solid.Area);
        Tell("\n");
    }

    static void TellUpdate(World world, uint maxTiles = Worlds.AllTiles)
    {
        Progress it;
        Want(world.Update(maxTiles, out it), "an update");
        Tell("built {0} published {1} pending {2} version {3}\n", it.TilesBuilt, it.Published ? 1 : 0, it.Pending ? 1 : 0, it.Version);
    }

    static void TellRoute(string what, Status status, Route route)
    {
        Tell("{0}: {1}", what, status.Name());
        if (status == Status.Ok || status == Status.Partial) Tell(" for {0} in version {1}", Written(route.Cost, "F6"), route.Version);
        TellCorners(route, 6);
    }

    static void ChangeObstacles(World world)
    {
        ulong round, painted, none;
        Want(world.Add(Shape.Cylinder(new Vec3(8, 1, 6), 0.5f, 1), 7, out round), "a cylinder");
        Want(world.Add(Shape.Prism(new float[] { 4, 4, 6, 4, 5, 6 }, -0.5f, 1, 5), 8, out painted), "a prism");
        Want(world.SetUser(painted, 9), "another number");
        TellObstacles(world);
        TellUpdate(world);
        Want(world.Remove(round), "a removal");
        Tell("{0} {1}", world.Remove(round).Name(), world.SetEnabled(painted, true).Name());
        Tell(" {0} {1}\n", world.Add(Shape.Box(new Vec3(float.NaN, 0, 0), new Vec3(1, 1, 1)), 0, out none).Name(),
            world.Add(Shape.Box(new Vec3(1, 1, 1), new Vec3(1, 1, 1), 0, 64), 0, out none).Name());
        TellObstacles(world);
        TellUpdate(world);
        TellUpdate(world);
    }

    // The tiles of a change are built in another thread, and shown by the next update.
    static void BuildByJobs(World world)
    {
        ulong id;
        int built = 0;
        Want(world.Add(Shape.Cylinder(new Vec3(8, 1, 6), 0.5f, 1), 0, out id), "a cylinder");
        TellUpdate(world, 0);
        var building = new Thread(() =>
        {
            uint tile;
            using (Registry registry = world.OpenRegistry())
            using (var job = new Job())
                for (; registry.Claim(job, out tile) == Status.Ok; built++)
                    if (job.Build() != Status.Ok || registry.Submit(job) != Status.Ok) break;
        });
        building.Start();
        building.Join();
        Tell("{0} tiles by jobs\n", built);
        TellUpdate(world, 0);
        Want(world.Remove(id), "a removal");
        TellUpdate(world);
    }

    static void SaveAndRestore(World world)
    {
        var room = new Room<byte>();
        Want(world.Save(room), "a saving");
        Want(world.Remove(2), "a removal");
        byte[] saved = room.Items.Take(room.Count).ToArray();
        Tell("saved {0} bytes, less of them {1}\n", saved.Length, world.Restore(saved.Take(saved.Length - 1).ToArray()).Name());
        TellObstacles(world);
        Want(world.Restore(saved), "a restoration");
        TellObstacles(world);
        TellUpdate(world);
    }

    static void Ask(Snapshot snapshot, Route route)
    {
        var place = new Vec3();
        float y = 0;
        Hit hit;
        Want(snapshot.Nearest(new Vec3(18, 3, 6), 1, 4, ref place), "a nearest place");
        Want(snapshot.Height(new Vec3(22, 9, 3), ref y), "a height");
        Tell("nearest:");
        TellPoint(place, 6);
        Tell(", height {0}, off the floor {1} {2}\n", Written(y, "F6"), snapshot.Nearest(new Vec3(-9, 0, 6), 1, 4, ref place).Name(),
            snapshot.Height(new Vec3(-9, 0, 6), ref y).Name());
        foreach (Vec3 to in new[] { new Vec3(5, 0, 3), new Vec3(14, 0, 1) })
        {
            Want(snapshot.Raycast(Start, to, out hit), "a ray");
            Tell("ray: {0} {1}", hit.IsHit ? "wall" : "reached", Written(hit.Fraction, "F6"));
            foreach (Vec3 at in new[] { hit.At, hit.WallFrom, hit.WallTo }) TellPoint(at, 6);
            Tell("\n");
        }
        var filter = new WorldFilter { AreaCosts = Enumerable.Repeat(2f, 64).ToArray() };
        TellRoute("twice as dear", snapshot.FindPath(filter, Start, new Vec3(10, 0, 10), route), route);
        filter.MaxCost = 3;
        TellRoute("limited", snapshot.FindPath(filter, Start, new Vec3(10, 0, 10), route), route);
        filter = new WorldFilter { Partial = true, Areas = ~(1ul << 5) };
        TellRoute("partial", snapshot.FindPath(filter, Start, new Vec3(60, 0, 6), route), route);
        TellRoute("nowhere", snapshot.FindPath(new Vec3(-9, 0, 3), Goal, route), route);
        TellRoute("no number", snapshot.FindPath(new Vec3(float.NaN, 0, 3), Goal, route), route);
        Shown shown;
        using (View view = snapshot.OpenView(), copy = new View())
            if (copy.Copy(view) == Status.Ok && copy.Count(out shown) == Status.Ok)
                Tell("a view of {0} tiles\n", shown.Tiles);
    }

    static void TellRefused(WorldDef def, uint[] indices)
    {
        World world;
        Problem problem;
        Status status = World.Create(def, Vertices, indices, null, out world, out problem);
        Tell("{0}: {1}\n", status.Name(), problem.Text);
    }

    static void PlayMore(World world, Snapshot snapshot, Route route)
    {
        Setting set = world.Mesh.Setting;
        Tell("{0} {1} {2} {3} {4} {5} \n", set.Width, set.Depth, set.Tile, set.Height, set.Climb, set.Radius);
        ChangeObstacles(world);
        BuildByJobs(world);
        SaveAndRestore(world);
        Want(snapshot.Refresh(world), "a refresh");
        Tell("{0}\n", snapshot.Refresh(world).Name());
        var asking = new Thread(() => Ask(snapshot, route));
        asking.Start();
        asking.Join();
        WorldDef def = Definition();
        def.MaxSlope = 91;
        TellRefused(def, Triangles);
        var indices = (uint[])Triangles.Clone();
        indices[5] = 99;
        TellRefused(Definition(), indices);
        TellRefused(Definition(), indices.Take(35).ToArray());
        world.Dispose();
        try
        {
            world.Update();
            throw new InvalidOperationException("what was disposed of was called");
        }
        catch (ObjectDisposedException)
        {
        }
        TellWay(snapshot, route); // a snapshot stays good
    }

    static void Play(bool withMore)
    {
        World world;
        Snapshot snapshot;
        Problem problem;
        ulong near, far;
        Want(World.Create(Definition(), Vertices, Triangles, null, out world, out problem), problem.Text);
        Want(world.Add(Door(3), 1, out near), "the near door, shut");
        Want(world.Add(Door(9), 2, out far), "the far door, shut");
        Want(Snapshot.Create(world, 0, out snapshot), "a snapshot");
        using (world)
        using (snapshot)
        using (var route = new Route())
        {
            for (int frame = 0; frame < Frames; frame++)
            {
                if (frame >= 30) Want(world.Move(near, Door(3, (frame - 29) * 0.15f)), "the near door, swinging"); // about its hinge
                if (frame == 10 || frame == 20) Want(world.SetEnabled(far, frame == 20), "the far door");
                Want(world.Update(1), "an update");
                if (snapshot.Refresh(world) != Status.Ok && frame != 0) continue;
                Tell("frame {0,2}, ", frame);
                TellWay(snapshot, route);
            }
            if (withMore) PlayMore(world, snapshot, route);
        }
    }

    static string Snake(string name)
    {
        return Regex.Replace(name, "(?<=[a-z])(?=[A-Z])", "_").ToLowerInvariant();
    }

    static int SizeOf(FieldInfo field)
    {
        var array = (MarshalAsAttribute)Attribute.GetCustomAttribute(field, typeof(MarshalAsAttribute));
        return array == null ? Marshal.SizeOf(field.FieldType) : array.SizeConst;
    }

    static void TellLayouts()
    {
        Type[] structs =
        {
            typeof(NavdFilter), typeof(NavdHit), typeof(NavdProblem), typeof(NavdProgress), typeof(RouteCorner), typeof(NavdShape), typeof(NavdTriangleMesh),
            typeof(Vec3), typeof(NavdWorldDef)
        };
        foreach (Type it in structs)
        {
            Tell("{0} {1}:", it.Name.StartsWith("Navd") ? Snake(it.Name) : "navd_" + Snake(it.Name), Marshal.SizeOf(it));
            foreach (FieldInfo field in it.GetFields(BindingFlags.Instance | BindingFlags.Public | BindingFlags.NonPublic))
                Tell(" {0} {1} {2}", Snake(field.Name), Marshal.OffsetOf(it, field.Name), SizeOf(field));
            Tell("\n");
        }
    }

    static void Main(string[] words)
    {
        if (words.Length == 1 && words[0] == "layouts") TellLayouts();
        else Play(words.Length == 1 && words[0] == "more");
    }
}
