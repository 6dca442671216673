// Plays an input of navd over Navd.cs: a field text and a script, from standard input to standard output.
//
//     mono play.exe < input            plays the script, and writes what `navd play` writes
//     mono play.exe view < input       the same, but the questions are asked of a view, which looks at each mesh that is published
//     mono play.exe more < input       the same of a view, and what no script asks for: a walker on each path; at the end the counts, what
//                                      there is to draw, and the numbers of a renewed history
//
// A worker of the script is a Job here, whose tile is built as it is claimed.
using System;
using System.Collections.Generic;
using System.Linq;
using System.Text;
using Navd;

internal sealed class Worker
{
    internal Job Job = new Job();
    internal bool Holds;
    internal uint Tile;
}

internal sealed class Player : IDisposable
{
    readonly Level level;
    readonly View view = new View();
    readonly Asked asked;
    readonly uint limit;
    readonly bool withMore;
    readonly System.IO.TextWriter told;
    readonly Worker[] workers = Enumerable.Range(0, 8).Select(_ => new Worker()).ToArray();
    readonly List<uint>[] lanes = Enumerable.Range(0, 16).Select(_ => new List<uint>()).ToArray();
    readonly List<Jump> jumps = new List<Jump>();
    readonly Room<Floor> floors = new Room<Floor>();
    readonly Path path = new Path();
    readonly Hop hop = new Hop();
    uint published, entries, lane;

    internal Player(Level level, uint limit, string mode, System.IO.TextWriter told)
    {
        withMore = mode == "more";
        this.level = level;
        this.limit = limit;
        this.told = told;
        asked = mode == "" ? (Asked)level : view;
        Look();
    }

    public void Dispose()
    {
        foreach (Worker worker in workers) worker.Job.Dispose();
        view.Dispose();
    }

    internal static void Must(Status status)
    {
        if (status != Status.Ok) throw new InvalidOperationException("a call ended with " + status);
    }

    void Tell(params object[] words)
    {
        told.Write(string.Join(" ", words) + "\n");
    }

    void Look()
    {
        uint shown;
        Must(view.Look(level, out shown));
        if (shown != published) throw new InvalidOperationException("a view shows another version than the last publish");
    }

    internal void Play(string line)
    {
        string[] words = line.Split(' ');
        switch (words[0])
        {
            case "add": Add(words.Skip(1).ToArray()); break;
            case "remove": Remove(uint.Parse(words[1])); break;
            case "drop":
                uint place = uint.Parse(words[1]);
                Remove(place >= 1 && place <= lanes[lane].Count ? lanes[lane][(int)place - 1] : 0);
                break;
            case "lane": lane = uint.Parse(words[1]) % 16; break;
            case "aim":
            case "settle":
            case "publish": Build(words[0]); break;
            case "claim":
            case "back":
            case "submit": Work(words[0], uint.Parse(words[1]) % 8); break;
            default: Ask(words[0], words.Skip(1).Select(int.Parse).ToArray()); break;
        }
    }

    internal void End()
    {
        Tell("done", published, entries);
        if (withMore) TellAll();
    }

    // == Requests and builds ==

    void TellEntry(Status status, uint entry, string done, uint number)
    {
        if (entry != 0) entries = entry;
        switch (status)
        {
            case Status.TooMany: Tell("entry", entry, "full", limit); break;
            case Status.Dead: Tell("entry", entry, "dead", number); break;
            case Status.HistoryFull: Tell("history full", entries); break;
            default:
                Must(status);
                Tell("entry", entry, done);
                break;
        }
    }

    void Add(string[] words)
    {
        uint area = 0, entry;
        if (words[0] == "area")
        {
            area = uint.Parse(words[1]);
            words = words.Skip(2).ToArray();
        }
        uint[] n = words.Skip(1).Select(uint.Parse).ToArray();
        Status status = words[0] == "block"
            ? level.AddBlock(new Block { X0 = n[0], X1 = n[1], Y0 = n[2], Y1 = n[3], Z0 = n[4], Z1 = n[5] }, area, out entry)
            : level.AddCylinder(new Cylinder { Cx = n[0], Cz = n[1], R = n[2], Y0 = n[3], Y1 = n[4] }, area, out entry);
        lanes[lane].Add(status == Status.Ok ? entry : 0);
        TellEntry(status, entry, "added", 0);
    }

    void Remove(uint number)
    {
        uint entry;
        Status status = level.Remove(number, out entry);
        TellEntry(status, entry, "removed", number);
    }

    void Build(string word)
    {
        uint number;
        if (word == "aim")
        {
            Must(level.Aim(out number));
            Tell("aim", number);
        }
        else if (word == "settle")
        {
            Must(level.Settle(out published));
            foreach (Worker worker in workers) LetGo(worker);
            Look();
            Tell("settled", published);
        }
        else
        {
            Status status = level.Publish(out number);
            if (status != Status.NotYet) published = number;
            if (status != Status.NotYet && status != Status.Same) Must(status);
            Look();
            Tell(status == Status.Ok ? "published" : status == Status.Same ? "same" : "notyet", number);
        }
    }

    static void LetGo(Worker worker)
    {
        worker.Job.Dispose();
        worker.Job = new Job();
        worker.Holds = false;
    }

    void Work(string word, uint number)
    {
        Worker worker = workers[number];
        if (word == "claim")
        {
            Claim(worker, number);
        }
        else if (!worker.Holds)
        {
            Tell("idle", number);
        }
        else if (word == "back")
        {
            Must(level.PutBack(worker.Job));
            worker.Holds = false;
            Tell("back", number, "tile", worker.Tile);
        }
        else
        {
            Status status = level.Submit(worker.Job);
            if (status != Status.Stale) Must(status);
            worker.Holds = false;
            Tell("submit", number, status == Status.Ok ? "taken" : "stale", worker.Tile);
        }
    }

    void Claim(Worker worker, uint number)
    {
        if (worker.Holds)
        {
            Tell("busy", number);
            return;
        }
        Status status = level.Claim(worker.Job, out worker.Tile);
        if (status == Status.Same)
        {
            Tell("claim", number, "none");
            return;
        }
        Must(status);
        worker.Holds = true;
        Must(worker.Job.Build());
        Tell("claim", number, "tile", worker.Tile);
    }

    // == Questions ==

    static Way WayOf(int[] n)
    {
        var way = new Way { FromY = (uint)n[2], ToY = n.Length > 5 ? (uint)n[5] : 0 };
        way.From = new Point { X = n[0], Z = n[1] };
        way.To = new Point { X = n[3], Z = n[4] };
        return way;
    }

    // A place or a way that is not there is an answer.
    bool IsRefusal(Status status)
    {
        switch (status)
        {
            case Status.NoStart: Tell("nostart", published); return true;
            case Status.NoGoal: Tell("nogoal", published); return true;
            case Status.NoPath: Tell("nopath", published); return true;
            case Status.Wall: return false;
            default: Must(status); return false;
        }
    }

    void Ask(string word, int[] n)
    {
        switch (word)
        {
            case "floor": AskFloors((uint)n[0], (uint)n[1]); break;
            case "path": FindPath(WayOf(n)); break;
            case "ray": CastRay(WayOf(n)); break;
            case "hop": FindHop(WayOf(n)); break;
            case "jump":
                Way way = WayOf(n);
                jumps.Add(new Jump { From = way.From, FromY = way.FromY, To = way.To, ToY = way.ToY, Cost = (uint)n[6] });
                break;
            default: Console.Error.WriteLine("not played: " + word); break;
        }
    }

    void AskFloors(uint x, uint z)
    {
        Must(asked.Floors(x, z, floors));
        var words = new List<object> { "floors", published, floors.Count };
        for (int i = 0; i < floors.Count; i++)
        {
            words.Add(floors[i].Y);
            words.Add(floors[i].Area);
        }
        Tell(words.ToArray());
    }

    void TellLink(Link link, string before = "")
    {
        Tell(before + "link", link.To.Tile, link.To.Index, link.Left.X, link.Left.Z, link.Right.X, link.Right.Z);
    }

    void TellTurns(Room<Turn> turns)
    {
        for (int i = 0; i < turns.Count; i++) Tell("turn", turns[i].At.X, turns[i].At.Z, turns[i].Side == 0 ? "L" : "R", turns[i].Link);
    }

    void FindPath(Way way)
    {
        if (withMore) Walk(way);
        if (IsRefusal(asked.FindPath(way, path))) return;
        Tell("path", published, path.Cost, path.First.Tile, path.First.Index, path.Links.Count, path.Turns.Count);
        for (int i = 0; i < path.Links.Count; i++) TellLink(path.Links[i]);
        TellTurns(path.Turns);
    }

    void FindHop(Way way)
    {
        if (IsRefusal(asked.FindHop(way, jumps.ToArray(), hop))) return;
        Tell("hop", published, hop.Cost, hop.First.Tile, hop.First.Index, hop.Steps.Count, hop.Turns.Count);
        for (int i = 0; i < hop.Steps.Count; i++)
        {
            Step step = hop.Steps[i];
            if (step.Kind == 0) TellLink(step.Link); else Tell("jump", step.Jump, step.Link.To.Tile, step.Link.To.Index);
        }
        TellTurns(hop.Turns);
    }

    void CastRay(Way way)
    {
        var ray = new Ray();
        Status status = asked.CastRay(way, ref ray);
        if (IsRefusal(status)) return;
        if (status == Status.Ok)
            Tell("reached", published, ray.Last.Tile, ray.Last.Index);
        else
            Tell("wall", published, ray.A.X, ray.A.Z, ray.B.X, ray.B.Z, ray.Num, ray.Den);
    }

    // == What no script asks for ==

    void Walk(Way way)
    {
        var walker = new Walker();
        var links = new Room<Link>();
        Status status = asked.Send(way, ref walker, links);
        for (int i = 0; status == Status.Ok && i < 8; i++)
        {
            Tell("walker", walker.Polygon.Tile, walker.Polygon.Index, walker.At.X, walker.At.Z, walker.Y, walker.Cost, links.Count);
            for (int place = 0; place < links.Count; place++) TellLink(links[place]);
            status = asked.March(ref walker, 40, links);
        }
    }

    void TellTile(uint tile)
    {
        var faces = new Room<Face>();
        var links = new Room<Link>();
        Must(asked.Polygons(tile, faces));
        Tell("tile", tile, faces.Count);
        for (int i = 0; i < faces.Count; i++)
        {
            var words = new List<object> { "polygon", faces[i].Area, faces[i].Low, faces[i].High };
            for (int place = 0; place < faces[i].Corners; place++)
            {
                words.Add(faces[i].Corner(place).X);
                words.Add(faces[i].Corner(place).Z);
            }
            Tell(words.ToArray());
        }
        Must(asked.InnerLinks(tile, links));
        TellLinks("inner ", links);
        Must(asked.BorderLinks(tile, links));
        TellLinks("border ", links);
    }

    void TellLinks(string word, Room<Link> links)
    {
        for (int i = 0; i < links.Count; i++)
        {
            Link link = links[i];
            TellLink(link, word + link.From.Tile + " " + link.From.Index + " " + link.Edge + " ");
        }
    }

    void TellAll()
    {
        Must(level.PutBackAll());
        Must(level.Settle(out published));
        Look();
        Counts counts;
        Shown shown;
        Must(level.Count(out counts));
        Must(view.Count(out shown));
        Tell("counts", counts.History, counts.Target, counts.Published, counts.Tiles, counts.Polygons, counts.Links, shown.Published,
            shown.Tiles);
        for (uint tile = 0; tile < counts.Tiles; tile++) TellTile(tile);
        var obstacles = new Room<Obstacle>();
        Must(level.Obstacles(obstacles));
        for (int i = 0; i < obstacles.Count; i++)
        {
            Obstacle it = obstacles[i];
            Tell("obstacle", it.Number, it.Area, it.Kind, it.Block.X0, it.Block.Z1, it.Cylinder.Cx, it.Cylinder.Y1);
        }
        var numbers = new Room<uint>();
        Must(level.Prepare());
        Must(level.Renew(numbers));
        Tell("renewed" + string.Concat(Enumerable.Range(0, numbers.Count).Select(place => " " + numbers[place])));
        Must(view.SetCosts(Enumerable.Repeat(2u, 64).ToArray()));
    }
}

internal static class Program
{
    static int Play(byte[] text, string mode, System.IO.TextWriter told)
    {
        using (var level = new Level())
        {
            Fault fault;
            Status status = level.Open(text, out fault);
            if (status == Status.Faulty)
            {
                told.Write("fault " + fault.Line + " " + fault.Kind + "\n");
                return 1;
            }
            Player.Must(status);
            string[] lines = Encoding.ASCII.GetString(text).Split(new[] { '\n' }, StringSplitOptions.RemoveEmptyEntries);
            uint limit = lines.Where(line => line.StartsWith("limit ")).Select(line => uint.Parse(line.Substring(6))).First();
            using (var player = new Player(level, limit, mode, told))
            {
                foreach (string line in lines.SkipWhile(line => !line.StartsWith("script ")).Skip(1)) player.Play(line);
                player.End();
            }
            return 0;
        }
    }

    static int Main(string[] words)
    {
        var text = new System.IO.MemoryStream();
        Console.OpenStandardInput().CopyTo(text);
        using (var told = new System.IO.StreamWriter(Console.OpenStandardOutput()))
            return Play(text.ToArray(), words.Length > 0 ? words[0] : "", told);
    }
}
