//! A level that is opened, changed, drawn and asked, with a crate across its room.
use navd::{
    place, version, Agent, Block, Checked, Crowd, Disc, Drawn, Entered, Error, Filter, Fine, FoundWay, Jump, Level, Limits, Near, NoWay, Planned, Point,
    Prism, Ray, Registry, Repair, Repaired, Row, Shape, Solid, VERSION, View,
};
use std::thread;

const TEXT: &[u8] = include_bytes!("../../../examples/storeroom.nav");
const CRATE: Block = Block { x0: 1, x1: 8, y0: 0, y1: 100, z0: 4, z1: 5 };

#[test]
fn a_crate_comes_and_goes() {
    let mut level = Level::open(TEXT).unwrap();
    let free = level.find_path(place(40, 40, 10), place(40, 120, 10)).unwrap().unwrap();
    let number = level.add_block(&CRATE, 0).unwrap();
    level.settle().unwrap();
    let round = level.find_path(place(40, 40, 10), place(40, 120, 10)).unwrap().unwrap();
    assert!(round.cost > free.cost && round.turns.len() == 2);
    assert!(matches!(level.cast_ray(place(40, 40, 10), place(40, 120, 10).at).unwrap().unwrap(), Ray::Wall { .. }));
    let obstacles = level.obstacles().unwrap();
    assert!(obstacles.len() == 1 && obstacles[0].number == number && matches!(obstacles[0].shape, Shape::Block(_)));
    let counts = level.counts().unwrap();
    let drawn: usize = (0..counts.tiles).map(|tile| level.polygons(tile).unwrap().len()).sum();
    assert_eq!(drawn, counts.polygons as usize);
    let jump = Jump { from: place(40, 40, 10).at, from_y: 10, to: place(40, 120, 10).at, to_y: 10, cost: 1 };
    let hop = level.find_hop(place(40, 40, 10), place(40, 120, 10), &[jump]).unwrap().unwrap();
    assert!(hop.cost == 1 && hop.steps.len() == 1);
    let mut walker = level.send(place(40, 40, 10), place(40, 120, 10)).unwrap().unwrap();
    for _ in 0..40 {
        walker = level.march(&walker, 16).unwrap().unwrap();
    }
    assert!(walker.at.at == walker.goal.at && walker.links.is_empty());
    level.remove(number).unwrap();
    level.settle().unwrap();
    assert_eq!(level.find_path(place(40, 40, 10), place(40, 120, 10)).unwrap().unwrap().cost, free.cost);
}

#[test]
fn a_prism_stops_as_the_block_that_it_fills() {
    let (from, to) = (place(40, 40, 10), place(40, 120, 10));
    let mut level = Level::open(TEXT).unwrap();
    let number = level.add_block(&CRATE, 0).unwrap();
    level.settle().unwrap();
    let due = level.find_path(from, to).unwrap().unwrap().cost;
    level.remove(number).unwrap();
    let [a, b, c, d] = [(16, 64), (144, 64), (144, 96), (16, 96)].map(|(x, z)| Point { x, z });
    let prism = Prism { corners: 4, point: [a, b, c, d, a, a], y0: 0, y1: 100 };
    level.add_prism(&prism, 0).unwrap();
    level.settle().unwrap();
    assert_eq!(level.find_path(from, to).unwrap().unwrap().cost, due);
    level.add_disc(&Disc { x: 16, z: 16, r: 1, y0: 0, y1: 100 }, 5).unwrap();
    let told: Vec<_> = level.obstacles().unwrap().iter().map(|it| (it.area, it.shape)).collect();
    assert!(matches!(told[..], [(0, Shape::Prism), (5, Shape::Disc)]));
    let clockwise = Prism { point: [d, c, b, a, a, a], ..prism };
    assert_eq!(level.add_prism(&clockwise, 0), Err(Error::OutOfRange));
}

#[test]
fn views_and_jobs_go_to_other_threads() {
    let mut level = Level::open(TEXT).unwrap();
    let mut view = View::of(&mut level).unwrap();
    view.set_costs(&[7; 64]).unwrap();
    level.add_block(&CRATE, 0).unwrap();
    level.aim().unwrap();
    while let Some(mut job) = level.claim().unwrap() {
        let job = thread::spawn(move || job.build().map(|_| job)).join().unwrap().unwrap();
        assert!(level.submit(job).map_err(|(error, _)| error).unwrap());
    }
    level.publish().unwrap();
    let asked = thread::spawn(move || (view.find_path(place(40, 40, 10), place(40, 120, 10)).unwrap().unwrap().cost, view));
    let own = level.find_path(place(40, 40, 10), place(40, 120, 10)).unwrap().unwrap().cost;
    let (before, mut view) = asked.join().unwrap();
    view.look(&mut level).unwrap();
    let after = view.find_path(place(40, 40, 10), place(40, 120, 10)).unwrap().unwrap().cost;
    assert!(before < after && after == 7 * own);
}

#[test]
fn agents_of_a_crowd_keep_apart() {
    let (from, to) = (place(40, 40, 10), place(40, 120, 10));
    let mut view = View::of(&mut Level::open(TEXT).unwrap()).unwrap();
    let links = view.find_path(from, to).unwrap().unwrap().links;
    let at = |p: Point| Agent { at: Fine { x: 16 * p.x, z: 16 * p.z }, areas: u64::MAX, radius: 100, full: 100, speed: 64, ..Agent::default() };
    let (mut walker, mut waiter, mut near) = (at(from.at), at(to.at), at(Point { x: 41, z: 40 }));
    assert_eq!(view.crowd_enter(&[], &mut walker, 10), Ok(Entered::Free));
    assert_eq!(view.crowd_enter(&[walker], &mut waiter, 10), Ok(Entered::Free));
    assert_eq!(view.crowd_enter(&[walker, waiter], &mut near, 10), Ok(Entered::Overlaps));
    let (rules, mut agents, mut link) = (Crowd { sight: 3072, hz: 20, rounds: 8 }, [walker, waiter], 0);
    for _ in 0..40 {
        assert_eq!(view.lead(&mut agents[0], to.at, &links, &mut link), Ok(true));
        let moves = [agents[0].wish];
        view.crowd_grant(rules, &mut agents, &[0, 1], &[0, 1, 1], &moves).unwrap();
    }
    // 16 steps of 64; one more would come nearer than both radii.
    assert_eq!((agents[0].at, agents[1].at), (Fine { x: 640, z: 1664 }, Fine { x: 640, z: 1920 }));
    assert_eq!(view.crowd_grant(rules, &mut agents, &[], &[0], &[]), Err(Error::OutOfRange));
    // By its wish it goes round; the other one is idle, waits, and is never slim before three seconds.
    agents[1].idle = 1;
    for _ in 0..40 {
        assert_eq!(view.lead(&mut agents[0], to.at, &links, &mut link), Ok(true));
        view.crowd_step(rules, &mut agents).unwrap();
        view.crowd_slim(rules, &mut agents).unwrap();
    }
    assert_eq!((agents[0].radius, agents[1].radius), (100, 100));
    let mut waits = [Agent { waited: 60, ..agents[0] }];
    view.crowd_slim(rules, &mut waits).unwrap();
    assert_eq!(waits[0].radius, 25);
    waits[0].waited = 0;
    view.crowd_slim(rules, &mut waits).unwrap();
    assert_eq!(waits[0].radius, 100);
    assert_eq!(view.crowd_step(Crowd { hz: 0, ..rules }, &mut waits), Err(Error::OutOfRange));
}

#[test]
fn a_kept_path_is_checked() {
    let (from, to) = (place(40, 40, 10), place(40, 120, 10));
    let mut level = Level::open(TEXT).unwrap();
    let mut view = View::of(&mut level).unwrap();
    let Planned::Whole(path) = view.plan(from, to, Filter::default(), Limits::default()).unwrap().unwrap() else { panic!("no way") };
    assert_eq!(path.cost, view.find_path(from, to).unwrap().unwrap().cost);
    let dear = Filter { areas: u64::MAX, costs: &[7; 64] };
    assert!(matches!(view.plan(from, to, dear, Limits::default()), Ok(Ok(Planned::Whole(it))) if it.cost == 7 * path.cost));
    assert!(matches!(view.plan(from, to, dear, Limits { cost: path.cost, ..Limits::default() }), Ok(Ok(Planned::Limit(_)))));
    assert_eq!(view.check(&path, from, to, Filter::default()).unwrap().unwrap(), Checked::Whole(path.clone()));
    let near = Limits { polygons: 1, ..Limits::default() };
    let Planned::Nearest { path: part, end, seen } = view.plan_partial(from, to, Filter::default(), near, 16).unwrap().unwrap() else { panic!("whole") };
    assert!(part.links.is_empty() && end.polygon == path.first && seen <= path.cost);
    let whole = view.plan_partial(from, to, Filter::default(), Limits::default(), 16).unwrap().unwrap();
    assert!(matches!(whole, Planned::Whole(it) if it.cost == path.cost));
    let anew = Repair { keep: 0, join: false, ..Repair::default() };
    let Repaired::Whole { path: again, kept: 0, bridge } = view.repair(&path, from, to, Filter::default(), anew).unwrap().unwrap() else { panic!("no") };
    assert!(again.cost == path.cost && again.links.len() == bridge);
    let reached = view.flood(from, path.cost, Filter::default()).unwrap().unwrap();
    assert!(reached[0].polygon == path.first && reached.iter().any(|it| it.polygon == path.links.last().unwrap().to && it.cost == path.cost));
    let behind = view.flood_back(to, path.cost, Filter::default()).unwrap().unwrap();
    assert!(behind.iter().any(|it| it.polygon == path.first && it.cost == path.cost));
    level.add_block(&CRATE, 0).unwrap();
    level.settle().unwrap();
    view.look(&mut level).unwrap();
    match view.check(&path, from, to, Filter::default()).unwrap() {
        Ok(Checked::Whole(now)) => assert!(now.links.len() == path.links.len()),
        Ok(Checked::Cut(now)) => assert!(now.links.len() <= path.links.len() && now.turns.is_empty()),
        Err(why) => assert_eq!(why, NoWay::NoStart),
    }
    assert_eq!(version(), VERSION);
}

#[test]
fn places_are_found() {
    let mut level = Level::open(TEXT).unwrap();
    let mut view = View::of(&mut level).unwrap();
    let under = view.nearest(place(40, 40, 10), Near::default()).unwrap().unwrap();
    assert_eq!(under.at, place(40, 40, 10));
    assert!(view.is_place(under).unwrap());
    assert_eq!(view.height(under).unwrap(), Some(under));
    assert_eq!(view.nearest(place(-4096, 40, 10), Near::default()).unwrap(), None);
    let aside = view.nearest(place(-4096, 40, 10), Near { reach: 8192, ..Near::default() }).unwrap().unwrap();
    assert!(0 <= aside.at.at.x && view.is_place(aside).unwrap());
    let above = navd::MeshPlace { at: place(40, 40, 11), ..under };
    assert!(!view.is_place(above).unwrap() && view.height(above).unwrap() == Some(under));
    let Drawn::Place(drawn) = view.random_place(u64::MAX, 1 << 63).unwrap() else { panic!("none is drawn") };
    assert!(view.is_place(drawn).unwrap());
    assert_eq!(view.random_place(0, 1 << 63).unwrap(), Drawn::Nowhere);
}

#[test]
fn ways_join_places() {
    let mut level = Level::open(TEXT).unwrap();
    let mut view = View::of(&mut level).unwrap();
    let (start, goal) = (place(40, 40, 10), place(40, 120, 10));
    let from = view.nearest(start, Near::default()).unwrap().unwrap();
    let to = view.nearest(goal, Near::default()).unwrap().unwrap();
    let (all, open) = (Filter::default(), Limits::default());
    let Ok(FoundWay::Whole(way)) = view.find_way(from, to, all, open).unwrap() else { panic!("no way joins the two") };
    assert_eq!((way.corners[0], way.corners[way.corners.len() - 1]), (from, to));
    assert_eq!(view.find_way_near(start, goal, Near::default(), all, open).unwrap(), Ok(FoundWay::Whole(way)));
    let above = navd::MeshPlace { at: place(40, 40, 11), ..from };
    assert_eq!(view.find_way(above, to, all, open).unwrap(), Err(NoWay::NoStart));
    assert_eq!(view.find_way(from, above, all, open).unwrap(), Err(NoWay::NoGoal));
    assert_eq!(view.find_way_near(start, place(-4096, 40, 10), Near::default(), all, open).unwrap(), Err(NoWay::NoGoal));
    assert_eq!(view.cast_ray_from(from, from.at.at).unwrap(), Ok(Ray::Reached(from.polygon)));
    assert_eq!(view.cast_ray_from(above, to.at.at).unwrap(), Err(NoWay::NoStart));
    assert_eq!(view.slide(from, from.at.at, 0).unwrap(), Ok(from));
    assert_eq!(view.slide(above, to.at.at, u64::MAX).unwrap(), Err(NoWay::NoStart));
    let end = view.slide(from, place(-4096, 40, 10).at, u64::MAX).unwrap().unwrap();
    assert!(view.is_place(end).unwrap() && end.at.at.x < 40);
}

#[test]
fn obstacles_keep_their_ids() {
    let mut registry = Registry::of(Level::open(TEXT).unwrap()).map_err(|(error, _)| error).unwrap();
    let crate_ = Solid::Block(CRATE);
    let id = registry.add(&crate_, 0, 7).unwrap();
    let aside = Solid::Disc(Disc { x: 40, z: 40, r: 8, y0: 0, y1: 100 });
    let other = registry.add(&aside, 5, 8).unwrap();
    assert_eq!((id, other), (1, 2));
    let told = registry.update(u32::MAX).unwrap();
    assert!(told.published && !told.pending && told.version == 1);
    registry.move_to(id, &aside, 0).unwrap();
    assert!(registry.enable(other, false).unwrap() && !registry.enable(other, false).unwrap());
    registry.mark(other, 9).unwrap();
    assert_eq!(registry.mark(3, 9), Err(Error::NoSuchObstacle));
    let rows = registry.rows().unwrap();
    assert!(matches!(rows[..], [Row { id: 1, user: 7, enabled: true, area: 0, .. }, Row { id: 2, user: 9, enabled: false, area: 5, .. }]));
    assert_eq!((rows[0].solid, rows[1].solid), (aside, aside));
    let mut view = View::of_registry(&mut registry).unwrap();
    while registry.update(1).unwrap().pending {}
    assert_eq!(view.look_at(&mut registry).unwrap(), 2);
    // what was never built is saved, since a build of shapes as they were before is remembered
    registry.move_to(id, &Solid::Block(Block { x0: 2, x1: 3, y0: 0, y1: 100, z0: 2, z1: 3 }), 0).unwrap();
    let rows = registry.rows().unwrap();
    let saved = registry.save().unwrap();
    registry.remove(id).unwrap();
    assert_eq!(registry.rows().unwrap().len(), 1);
    assert_eq!(registry.restore(&saved[1..]), Err(Error::NotSaved));
    registry.restore(&saved).unwrap();
    assert_eq!(registry.rows().unwrap(), rows);
    assert!(registry.claim().unwrap().is_none() && !registry.update(0).unwrap().published);
    let unbuilt = registry.claim().unwrap().unwrap();
    let tile = unbuilt.tile();
    let (error, unbuilt) = registry.submit(unbuilt).unwrap_err();
    assert_eq!(error, Error::NotBuilt);
    registry.put_back(unbuilt).map_err(|(error, _)| error).unwrap();
    let mut jobs = Vec::new();
    while let Some(mut job) = registry.claim().unwrap() {
        jobs.push(std::thread::spawn(move || job.build().map(|_| job)));
    }
    for (place, job) in jobs.into_iter().enumerate() {
        let job = job.join().unwrap().unwrap();
        assert!(place > 0 || job.tile() == tile);
        assert!(registry.submit(job).map_err(|(error, _)| error).unwrap());
    }
    assert!(registry.update(0).unwrap().published);
    let mut copy = view.duplicate().unwrap();
    assert_eq!(view.look_at(&mut registry).unwrap(), 4);
    assert_ne!(copy.shown().unwrap().published, view.shown().unwrap().published);
    registry.put_back_all();
    let mut level = Level::open(TEXT).unwrap();
    level.add_block(&CRATE, 0).unwrap();
    assert!(matches!(Registry::of(level), Err((Error::HasObstacles, _))));
}
