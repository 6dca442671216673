//! Two kinds of agents over one ground: the polygons and ways of each, and a block that both go round or do not.
use navd::{place, Block, Error, Ground, Kind, Kinds, NoWay, Publish, Span, View};

const GROUND: Ground = Ground { width: 8, depth: 8, error: 0, contours: 0, limit: 8 };
const KINDS: [Kind; 2] = [
    Kind { height: 10, climb: 4, radius: 0, clear: 0, tile: 8 },
    Kind { height: 10, climb: 4, radius: 1, clear: 0, tile: 8 },
];
const BLOCK: Block = Block { x0: 3, x1: 3, y0: 0, y1: 100, z0: 1, z1: 5 };

fn flat() -> Vec<Span> {
    (0..64).map(|at| Span { x: at % 8, z: at / 8, bottom: 0, top: 10, area: 63 }).collect()
}

#[test]
fn a_block_is_in_the_way_of_both_kinds() {
    let mut kinds = Kinds::open(&GROUND, &KINDS, &[], &flat()).unwrap();
    assert_eq!((kinds.counts(0).unwrap().polygons, kinds.counts(1).unwrap().polygons), (6, 4));
    let number = kinds.add_block(&BLOCK, 0).unwrap();
    assert_eq!((number, kinds.settle().unwrap()), (1, 1));
    let mut narrow = View::of_kind(&mut kinds, 0).unwrap();
    let mut wide = View::of_kind(&mut kinds, 1).unwrap();
    let (from, to) = (place(40, 40, 10), place(88, 40, 10));
    assert_eq!(narrow.find_path(from, to).unwrap().unwrap().cost, 161);
    assert_eq!(wide.find_path(from, to).unwrap(), Err(NoWay::NoPath));
    kinds.remove(number).unwrap();
    assert_eq!(wide.look_at_kind(&mut kinds, 1), Ok(1));
    assert!(matches!(View::of_kind(&mut kinds, 2), Err(Error::OutOfRange)));
}

#[test]
fn both_kinds_show_it_or_none_does() {
    let mut kinds = Kinds::open(&GROUND, &KINDS, &[1; 64], &flat()).unwrap();
    kinds.add_block(&BLOCK, 0).unwrap();
    assert_eq!(kinds.aim(), Ok(1));
    assert_eq!(kinds.step(), Ok(Some((0, 0))));
    assert_eq!(kinds.publish(), Ok(Publish::NotYet { kind: 1, tile: 0 }));
    let (kind, mut job) = kinds.claim().unwrap().unwrap();
    assert_eq!((kind, job.tile()), (1, 0));
    assert!(job.build().is_ok());
    let job = match kinds.submit(0, job) {
        Err((Error::Foreign, job)) => job,
        other => panic!("{:?}", other.map_err(|(error, _)| error)),
    };
    assert!(matches!(kinds.submit(1, job), Ok(true)));
    assert_eq!(kinds.publish(), Ok(Publish::Done { entries: 1 }));
    assert_eq!(kinds.renew(), Ok(vec![1]));
    assert!(matches!(Kinds::open(&GROUND, &[], &[], &flat()), Err(Error::OutOfRange)));
}
