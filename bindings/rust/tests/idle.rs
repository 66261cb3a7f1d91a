//! Idle controls: which go and by which end, that they can be put back, and that crunching then keeps the bend.

mod common;

use common::{letter, points, zigzag};
use fontcrunch::{drop_idle, put_back_idle, Beside, Cruncher, IdleDrop, Point, Refusal, Settings};

/// Dropped, and put back again.
fn dropped(numbers: &[i16]) -> (Vec<Point>, Vec<(u32, Beside)>) {
    let upload = points(numbers);
    let idle = drop_idle(&upload).unwrap();
    assert_eq!(put_back_idle(&idle.points, &idle.dropped).unwrap(), upload);
    assert_eq!(drop_idle(&idle.points).unwrap().dropped, []);
    (idle.points, idle.dropped.iter().map(|drop| (drop.place, drop.beside)).collect())
}

#[test]
fn each_end() {
    let line = points(&[0, 0, 1, 5, 0, 1]);
    assert_eq!(dropped(&[0, 0, 1, 0, 0, 0, 5, 0, 1]), (line.clone(), vec![(1, Beside::Before)]));
    assert_eq!(dropped(&[0, 0, 1, 5, 0, 0, 5, 0, 1]), (line.clone(), vec![(1, Beside::After)]));
    // the point after the last is the first
    assert_eq!(dropped(&[0, 0, 1, 5, 0, 1, 0, 0, 0]), (line.clone(), vec![(2, Beside::After)]));
    assert_eq!(dropped(&[0, 0, 1, 5, 0, 1, 5, 0, 0]), (line, vec![(2, Beside::Before)]));
    // both: the one before
    assert_eq!(dropped(&[7, 9, 1, 7, 9, 0]), (points(&[7, 9, 1]), vec![(1, Beside::Before)]));
}

#[test]
fn what_stays() {
    // a repeated on-curve point, a loop, and a control that shares one coordinate alone
    for numbers in
        [&[0, 0, 1, 0, 0, 1][..], &[0, 0, 1, 9, 9, 0, 0, 0, 1], &[0, 0, 1, 0, 9, 0, 9, 0, 1], &[7, 9, 1]]
    {
        assert_eq!(dropped(numbers), (points(numbers), vec![]));
    }
}

#[test]
fn places_are_those_of_the_upload() {
    let upload = [0, 0, 1, 0, 0, 0, 9, 0, 1, 9, 5, 0, 9, 9, 1, 0, 9, 0, 0, 9, 1, 0, 9, 0];
    assert_eq!(
        dropped(&upload),
        (
            points(&[0, 0, 1, 9, 0, 1, 9, 5, 0, 9, 9, 1, 0, 9, 1]),
            vec![(1, Beside::Before), (5, Beside::After), (7, Beside::Before)]
        )
    );
}

#[test]
fn most_points() {
    let idle: Vec<Point> = zigzag(512).iter().flat_map(|&p| [p, Point { on_curve: false, ..p }]).collect();
    let made = drop_idle(&idle).unwrap();
    assert_eq!((made.points.len(), made.dropped.len()), (512, 512));
    assert_eq!(put_back_idle(&made.points, &made.dropped).unwrap(), idle);
    assert_eq!(drop_idle(&zigzag(1025)), Err(Refusal::TooManyPoints));
    let one_more = IdleDrop { place: 1, beside: Beside::After };
    assert_eq!(put_back_idle(&zigzag(1024), &[one_more]), Err(Refusal::TooManyPoints));
}

#[test]
fn refusals() {
    assert_eq!(drop_idle(&[]), Err(Refusal::NoPoint));
    assert_eq!(drop_idle(&points(&[0, 0, 0])), Err(Refusal::StartsOffCurve));
    assert_eq!(drop_idle(&points(&[0, 0, 1, 0, 0, 0, 0, 0, 0])), Err(Refusal::OffCurveNeighbours));
    assert_eq!(put_back_idle(&[], &[]), Err(Refusal::NoPoint));
}

#[test]
fn any_list_is_put_back() {
    let kept = points(&[1, 1, 1, 2, 2, 0]);
    let back = |list: &[(u32, Beside)]| {
        let list: Vec<IdleDrop> = list.iter().map(|&(place, beside)| IdleDrop { place, beside }).collect();
        put_back_idle(&kept, &list).unwrap()
    };
    // before the first, and after the last
    assert_eq!(back(&[(0, Beside::Before)]), points(&[1, 1, 0, 1, 1, 1, 2, 2, 0]));
    assert_eq!(back(&[(2, Beside::After)]), points(&[1, 1, 1, 2, 2, 0, 1, 1, 0]));
    // a place that never comes is put at the end, and so is whatever stands behind it in the list
    assert_eq!(
        back(&[(9, Beside::Before), (1, Beside::After)]),
        points(&[1, 1, 1, 2, 2, 0, 2, 2, 0, 1, 1, 0])
    );
}

#[test]
fn a_run_keeps_its_bend_once_its_idle_control_is_dropped() {
    let upload = points(&[0, 0, 1, 0, 0, 0, 100, 0, 1, 300, 0, 0, 300, 200, 1, 0, 200, 1]);
    let mut cruncher = Cruncher::new(Settings::default().with_closed(true));
    assert_eq!(cruncher.crunch(&upload).unwrap().points, points(&[0, 0, 1, 300, 200, 1, 0, 200, 1]));
    let idle = drop_idle(&upload).unwrap();
    assert!(cruncher.crunch(&idle.points).unwrap().points.iter().any(|point| !point.on_curve));
    for contour in letter() {
        assert_eq!(drop_idle(&contour).unwrap().points, contour);
    }
}
