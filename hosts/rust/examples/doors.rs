//! hosts/world/doors.c over `navd::world`: a game's loop in a hall with a wall across it, two doors and a ramp. What it writes is hosts/world/doors.out.
//!
//!     doors           plays the loop
//!     doors more      and then what the loop does not call
use navd::world::{vec3, Filter, Found, Problem, Route, RouteCorner, Shape, Snapshot, Vec3, World, WorldDef, ALL_TILES};
use navd::{Error, Solid};

const FRAMES: u32 = 40;

/// A floor of 16 m by 12 m, a ramp of 4 m up to 2 m, a floor up there, and a wall across at 12 m in three pieces of 3 m.
#[rustfmt::skip]
const VERTICES: [[f32; 3]; 20] = [
    [0.0, 0.0, 0.0], [0.0, 0.0, 12.0], [16.0, 0.0, 0.0], [16.0, 0.0, 12.0], [20.0, 2.0, 0.0], [20.0, 2.0, 12.0], [24.0, 2.0, 0.0], [24.0, 2.0, 12.0],
    [12.0, 0.0, 0.0], [12.0, 0.0, 2.0], [12.0, 3.0, 0.0], [12.0, 3.0, 2.0], [12.0, 0.0, 4.0], [12.0, 0.0, 8.0], [12.0, 3.0, 4.0], [12.0, 3.0, 8.0],
    [12.0, 0.0, 10.0], [12.0, 0.0, 12.0], [12.0, 3.0, 10.0], [12.0, 3.0, 12.0],
];

fn triangles() -> Vec<[u32; 3]> {
    [0, 2, 4, 8, 12, 16].iter().flat_map(|first| [[*first, first + 1, first + 2], [first + 2, first + 1, first + 3]]).collect()
}

fn definition() -> WorldDef<'static> {
    WorldDef { cell_size: 0.25, agent_radius: 0.4, tile_cells: 24, ..WorldDef::default() } // what is not said here is Recast's usual
}

fn start() -> Vec3 {
    vec3(2.0, 0.0, 3.0)
}

fn goal() -> Vec3 {
    vec3(22.0, 2.0, 9.0)
}

fn door(z: f32, yaw: f32) -> Shape<'static> {
    Shape::Box { center: vec3(12.0 - yaw.sin(), 1.5, z - 1.0 + yaw.cos()), half: vec3(0.1, 1.5, 1.0), yaw }
}

fn told(at: Vec3, digits: usize) -> String {
    format!(" ({:.*} {:.*} {:.*})", digits, at.x, digits, at.y, digits, at.z)
}

fn told_corners(corners: &[RouteCorner], digits: usize) -> String {
    corners.iter().map(|corner| told(corner.at, digits)).collect()
}

fn tell_way(snapshot: &mut Snapshot, route: &mut Route) -> Result<(), Error> {
    let found = snapshot.find_path(start(), goal(), &Filter::default(), route)?;
    let said = if found == Found::Whole { "a way".into() } else { found.to_string() };
    println!("version {}: {}{}", snapshot.version(), said, told_corners(route.corners(), 2));
    Ok(())
}

fn tell_obstacles(world: &mut World) -> Result<(), Error> {
    print!("obstacles:");
    for row in world.obstacles()? {
        let kind = match row.solid {
            Solid::Block(_) => 0,
            Solid::Cylinder(_) => 1,
            Solid::Prism(_) => 2,
            Solid::Disc(_) => 3,
        };
        print!(" {} of {} {} kind {} area {},", row.id, row.user, if row.enabled { "on" } else { "off" }, kind, row.area);
    }
    println!();
    Ok(())
}

fn tell_update(world: &mut World, max_tiles: u32) -> Result<(), Error> {
    let it = world.update(max_tiles)?;
    println!("built {} published {} pending {} version {}", it.tiles_built, u32::from(it.published), u32::from(it.pending), it.version);
    Ok(())
}

fn name_of(error: &Error) -> &'static str {
    match error {
        Error::NoSuchObstacle => "NAVD_NO_OBSTACLE",
        Error::NotSaved => "NAVD_NOT_SAVED",
        Error::OutOfRange => "NAVD_OUT_OF_RANGE",
        _ => "another",
    }
}

fn tell_route(what: &str, found: Result<Found, Error>, route: &Route) {
    let name = match &found {
        Ok(Found::Whole) => "NAVD_OK",
        Ok(Found::Partial) => "NAVD_PARTIAL",
        Ok(Found::NoStart) => "NAVD_NO_START",
        Ok(Found::NoGoal) => "NAVD_NO_GOAL",
        Ok(Found::NoPath) => "NAVD_NO_PATH",
        Ok(Found::Limit) => "NAVD_LIMIT",
        Err(error) => name_of(error),
    };
    print!("{}: {}", what, name);
    if matches!(found, Ok(Found::Whole | Found::Partial)) {
        print!(" for {:.6} in version {}", route.cost(), route.version());
    }
    println!("{}", told_corners(route.corners(), 6));
}

fn change_obstacles(world: &mut World) -> Result<(), Error> {
    let round = world.add(&Shape::Cylinder { center: vec3(8.0, 1.0, 6.0), radius: 0.5, half_height: 1.0 }, 0, 7)?;
    let corners = [[4.0, 4.0], [6.0, 4.0], [5.0, 6.0]];
    let painted = world.add(&Shape::Prism { corners: &corners, min_y: -0.5, max_y: 1.0 }, 5, 8)?;
    world.set_user(painted, 9)?;
    tell_obstacles(world)?;
    tell_update(world, ALL_TILES)?;
    world.remove(round)?;
    let unit = vec3(1.0, 1.0, 1.0);
    let none = Shape::Box { center: vec3(f32::NAN, 0.0, 0.0), half: unit, yaw: 0.0 };
    let gone = world.remove(round).unwrap_err();
    let same = if world.set_enabled(painted, true)? { "NAVD_OK" } else { "NAVD_SAME" };
    let refused = [world.add(&none, 0, 0), world.add(&Shape::Box { center: unit, half: unit, yaw: 0.0 }, 64, 0)].map(|it| name_of(&it.unwrap_err()));
    println!("{} {} {} {}", name_of(&gone), same, refused[0], refused[1]);
    tell_obstacles(world)?;
    tell_update(world, ALL_TILES)?;
    tell_update(world, ALL_TILES)
}

/// The tiles of a change are built in other threads, and shown by the next update.
fn build_by_jobs(world: &mut World) -> Result<(), Error> {
    let round = world.add(&Shape::Cylinder { center: vec3(8.0, 1.0, 6.0), radius: 0.5, half_height: 1.0 }, 0, 0)?;
    tell_update(world, 0)?;
    let mut jobs = Vec::new();
    while let Some(mut job) = world.registry().claim()? {
        jobs.push(std::thread::spawn(move || job.build().map(|_| job)));
    }
    let mut built = 0;
    for job in jobs {
        built += u32::from(world.registry().submit(job.join().unwrap()?).map_err(|(error, _)| error)?);
    }
    println!("{} tiles by jobs", built);
    tell_update(world, 0)?;
    world.remove(round)?;
    tell_update(world, ALL_TILES)
}

fn save_and_restore(world: &mut World) -> Result<(), Error> {
    let saved = world.save()?;
    world.remove(2)?;
    println!("saved {} bytes, less of them {}", saved.len(), name_of(&world.restore(&saved[1..]).unwrap_err()));
    tell_obstacles(world)?;
    world.restore(&saved)?;
    tell_obstacles(world)?;
    tell_update(world, ALL_TILES)
}

fn ask(snapshot: &mut Snapshot, route: &mut Route) -> Result<(), Error> {
    let usual = Filter::default();
    let place = snapshot.nearest(vec3(18.0, 3.0, 6.0), 1.0, 4.0, &usual)?.ok_or(Error::OutOfRange)?;
    let height = snapshot.height(vec3(22.0, 9.0, 3.0))?.ok_or(Error::OutOfRange)?;
    let off = vec3(-9.0, 0.0, 6.0);
    let is_there = [snapshot.nearest(off, 1.0, 4.0, &usual)?.is_some(), snapshot.height(off)?.is_some()];
    let names = is_there.map(|is_there| if is_there { "NAVD_OK" } else { "NAVD_NO_PLACE" });
    println!("nearest:{}, height {:.6}, off the floor {} {}", told(place, 6), height, names[0], names[1]);
    for to in [vec3(5.0, 0.0, 3.0), vec3(14.0, 0.0, 1.0)] {
        let hit = snapshot.raycast(start(), to)?.ok_or(Error::OutOfRange)?;
        let ends: String = [hit.at, hit.wall_from, hit.wall_to].iter().map(|at| told(*at, 6)).collect();
        println!("ray: {} {:.6}{}", if hit.hit { "wall" } else { "reached" }, hit.fraction, ends);
    }
    let near = vec3(10.0, 0.0, 10.0);
    let dear = Filter { area_costs: Some(&[2.0; 64]), ..usual };
    tell_route("twice as dear", snapshot.find_path(start(), near, &dear, route), route);
    tell_route("limited", snapshot.find_path(start(), near, &Filter { max_cost: 3.0, ..dear }, route), route);
    let partial = Filter { partial: true, areas: !(1 << 5), ..usual };
    tell_route("partial", snapshot.find_path(start(), vec3(60.0, 0.0, 6.0), &partial, route), route);
    tell_route("nowhere", snapshot.find_path(vec3(-9.0, 0.0, 3.0), goal(), &usual, route), route);
    tell_route("no number", snapshot.find_path(vec3(f32::NAN, 0.0, 3.0), goal(), &usual, route), route);
    println!("a view of {} tiles", snapshot.view().duplicate()?.shown()?.tiles);
    Ok(())
}

fn tell_refused(def: &WorldDef, triangles: &[[u32; 3]], areas: Option<&[u8]>) {
    let problem = World::create(def, &VERTICES, triangles, areas).map(drop).unwrap_err();
    let name = if matches!(problem, Problem::Faulty { triangle: 1, .. }) { "NAVD_FAULTY" } else { "NAVD_OUT_OF_RANGE" };
    println!("{}: {}", name, problem);
}

fn play_more(mut world: World, mut snapshot: Snapshot, mut route: Route) -> Result<(), Error> {
    let set = world.mesh().setting;
    println!("{} {} {} {} {} {} ", set.width, set.depth, set.tile, set.height, set.climb, set.radius);
    change_obstacles(&mut world)?;
    build_by_jobs(&mut world)?;
    save_and_restore(&mut world)?;
    snapshot.refresh()?;
    println!("{}", if snapshot.refresh()? { "NAVD_OK" } else { "NAVD_SAME" });
    let asking = std::thread::spawn(move || ask(&mut snapshot, &mut route).map(|_| (snapshot, route)));
    let (mut snapshot, mut route) = asking.join().unwrap()?;
    let mut triangles = triangles();
    tell_refused(&WorldDef { max_slope: 91, ..definition() }, &triangles, None);
    triangles[1][2] = 99;
    tell_refused(&definition(), &triangles, None);
    tell_refused(&definition(), &triangles, Some(&[63; 11]));
    let watcher = world.watcher();
    drop(world);
    assert!(!snapshot.refresh()? && watcher.snapshot()?.version() == snapshot.version());
    tell_way(&mut snapshot, &mut route) // a snapshot stays good
}

fn main() -> Result<(), Box<dyn std::error::Error>> {
    let mut world = World::create(&definition(), &VERTICES, &triangles(), None)?;
    let near = world.add(&door(3.0, 0.0), 0, 1)?;
    let far = world.add(&door(9.0, 0.0), 0, 2)?;
    let (mut snapshot, mut route) = (world.watcher().snapshot()?, Route::new()?);
    for frame in 0..FRAMES {
        if frame >= 30 {
            world.move_to(near, &door(3.0, (frame - 29) as f32 * 0.15), 0)?; // the near door swings about its hinge
        }
        if frame == 10 || frame == 20 {
            world.set_enabled(far, frame == 20)?;
        }
        world.update(1)?;
        if snapshot.refresh()? || frame == 0 {
            print!("frame {:2}, ", frame);
            tell_way(&mut snapshot, &mut route)?;
        }
    }
    if std::env::args().nth(1).as_deref() == Some("more") {
        play_more(world, snapshot, route)?;
    }
    Ok(())
}
