//! The numbers in the data are the calls' answers.

mod common;

use std::fs;
use std::path::Path;

use common::{example, examples, written, Data};
use jusqani::{Choice, Curve, Evaluation, Rect, Setting, Verdict};

fn sides(rect: Rect) -> Vec<i64> {
    <[i32; 4]>::from(rect).map(i64::from).to_vec()
}

fn curve_of(card: &Path) -> Curve {
    Curve::read_card(&fs::read(card).unwrap()).unwrap()
}

/// The rows of readings: j, the load's sides, the flag.
fn readings(read: impl Fn(u32) -> Evaluation) -> Vec<Vec<i64>> {
    let row = |j: u32| {
        let Evaluation { load, exact, .. } = read(j);
        [vec![j.into()], sides(load), vec![exact.into()]].concat()
    };
    (0..=16).map(row).collect()
}

#[test]
fn has_the_readings_the_control_rectangles_and_the_span() {
    for card in examples("", "card") {
        let (curve, data) = (curve_of(&card), Data::of(&[&card]));
        assert_eq!(
            data.rows("staged"),
            readings(|j| curve.evaluate(j, 16).unwrap())
        );
        assert_eq!(
            data.rows("summed"),
            readings(|j| curve.evaluate_sixteenths(j).unwrap())
        );
        let control = curve.control_points().zip(0..);
        let control = control.map(|(rect, k)| [vec![k], sides(rect)].concat());
        assert_eq!(data.rows("control"), control.collect::<Vec<_>>());
        let span = ["r_low", "r_high", "x_low", "x_high"].map(|name| data.numbers[name]);
        assert_eq!(span.to_vec(), sides(curve.bounds().unwrap()));
        assert_eq!(data.numbers["degree"], curve.degree().into());
        assert_eq!(data.numbers["settings"], 0);
    }
}

#[test]
fn has_the_name_the_degree_and_the_guarantee() {
    for card in examples("", "card") {
        let (degree, data) = (curve_of(&card).degree(), Data::of(&[&card]));
        let unit = if degree == 1 { "step" } else { "steps" };
        let name = card.file_stem().unwrap().to_str().unwrap();
        let title = [
            format!("{name}, degree {degree}"),
            format!("every load lies inside; no side more than {degree} {unit} ({degree}/1,024 ohm) beyond the exact one"),
        ];
        assert_eq!(data.words("title"), title);
    }
}

/// The reflection of a load in ohms, (z − 50)/(z + 50) multiplied out.
fn reflection(r: f64, x: f64) -> [f64; 2] {
    let square = (r + 50.0) * (r + 50.0) + x * x;
    [(r * r - 2500.0 + x * x) / square, 100.0 * x / square]
}

/// The load of a reflection in ohms, 50 (1 + Γ)/(1 − Γ) multiplied out.
fn load([real, imaginary]: [f64; 2]) -> [f64; 2] {
    let square = (1.0 - real) * (1.0 - real) + imaginary * imaginary;
    let resistance = 50.0 * (1.0 - real * real - imaginary * imaginary) / square;
    [resistance, 100.0 * imaginary / square]
}

/// An outline has the rectangle's four corners, ends where it begins, and has no point that is not on an edge.
fn expect_outline(rect: &[i64], outline: &[[f64; 2]]) {
    let [r_low, r_high, x_low, x_high] = [0, 1, 2, 3].map(|k| rect[k] as f64 / 1024.0);
    let has = |r: f64, x: f64| {
        let [real, imaginary] = reflection(r, x);
        let mut points = outline.iter();
        points.any(|point| (point[0] - real).hypot(point[1] - imaginary) < 2e-9)
    };
    assert!(has(r_low, x_low) && has(r_low, x_high), "{rect:?}");
    assert!(has(r_high, x_low) && has(r_high, x_high), "{rect:?}");
    assert_eq!(outline.first(), outline.last());
    for point in outline {
        let [r, x] = load(*point);
        // What nine decimals of a reflection leave open of its load.
        let slack = 1e-6 + 1e-11 * ((r + 50.0) * (r + 50.0) + x * x);
        let near = |a: f64, side: f64| (a - side).abs() < slack;
        let between = |a: f64, low: f64, high: f64| low - slack < a && a < high + slack;
        let across = (near(x, x_low) || near(x, x_high)) && between(r, r_low, r_high);
        let upright = (near(r, r_low) || near(r, r_high)) && between(x, x_low, x_high);
        assert!(across || upright, "{rect:?}: {r} {x}");
    }
}

/// A block has the outlines of these rectangles, in their order.
fn expect_outlines(data: &Data, block: &str, rects: &[Vec<i64>]) {
    let outlines = data.outlines(block);
    assert_eq!(outlines.len(), rects.len(), "{block}");
    for (rect, outline) in rects.iter().zip(&outlines) {
        expect_outline(rect, outline);
    }
}

#[test]
fn has_the_regions_of_the_same_rectangles() {
    for card in examples("", "card") {
        let (curve, data) = (curve_of(&card), Data::of(&[&card]));
        let rects = |block: &str| -> Vec<Vec<i64>> {
            let rows = data.rows(block).into_iter();
            rows.map(|row| row[1..5].to_vec()).collect()
        };
        expect_outlines(&data, "control_outlines", &rects("control"));
        expect_outlines(&data, "span_outline", &[sides(curve.bounds().unwrap())]);
        expect_outlines(&data, "staged_outlines", &rects("staged"));
        expect_outlines(&data, "summed_outlines", &rects("summed"));
        expect_outlines(&data, "summed_regions", &rects("summed"));
        assert_eq!(data.numbers["regions"], 17);
    }
}

/// A card of degree 1 with these sides at both ends.
fn constant(name: &str, sides: [i32; 4]) -> Data {
    let row = sides.map(|side| format!("{side:>10}")).concat();
    let card = format!("{:>10}\n{row}\n{row}\n", 1);
    Data::of(&[&written(name, &card)])
}

/// Wide, narrow, and past −50 ohms on either side, in ohms.
const ODD: [[i32; 4]; 5] = [
    [10, 20, -5, 30],
    [0, 16_384, -16_384, 16_384],
    [-300, -60, -1, 1],
    [-49, 700, 0, 3],
    [-16_384, 16_384, 1, 2],
];

#[test]
fn has_the_regions_of_odd_rectangles() {
    for (k, ohms) in ODD.iter().enumerate() {
        let rect = ohms.map(|side| side * 1024);
        let data = constant(&format!("odd_{k}.card"), rect);
        let rects = vec![rect.map(i64::from).to_vec(); 17];
        expect_outlines(&data, "staged_outlines", &rects);
    }
}

/// The middle of a row's load, as its reflection.
fn middle(row: &[i64]) -> String {
    let middle = |k: usize| (row[k] + row[k + 1]) as f64 / 2048.0;
    let [real, imaginary] = reflection(middle(1), middle(3));
    format!("{real:.9} {imaginary:.9}")
}

/// The summed readings that are lit are marked in their middles. The ends always are.
#[test]
fn has_the_lit_readings_on_the_chart() {
    for card in examples("", "card") {
        let data = Data::of(&[&card]);
        let summed = data.rows("summed");
        let lit = summed.iter().filter(|row| row[5] == 1);
        let expected: Vec<String> = lit.map(|row| middle(row)).collect();
        assert_eq!(data.blocks["lit"], expected);
        assert!(expected.len() >= 2);
    }
}

/// The text of a list.
fn list(depth: u32, budget: u32, settings: &[Setting]) -> String {
    let column = |number: i64| format!("{number:>10}");
    let record = |setting: &Setting| {
        let sides = sides(setting.limits).into_iter().map(column);
        sides.collect::<String>() + &column(setting.number.into()) + "\n"
    };
    let numbers = [8, depth.into(), budget.into(), settings.len() as i64];
    let records: String = settings.iter().map(record).collect();
    numbers.map(column).concat() + "\n" + &records
}

fn settings(boxes: &[[i32; 4]]) -> Vec<Setting> {
    let setting = |(limits, number): (&[i32; 4], u16)| Setting {
        limits: (*limits).into(),
        number,
    };
    boxes.iter().zip(40..).map(setting).collect()
}

/// The data of a list are its records, what the calls answer, and the words for it.
fn expect_list(name: &str, depth: u32, budget: u32, settings: &[Setting], words: &[&str]) {
    let card = example("dipole.card");
    let text = list(depth, budget, settings);
    let data = Data::of(&[&card, &written(name, &text)]);
    let curve = curve_of(&card);
    let choice = curve.choose_setting(settings, depth, budget).unwrap();
    let fate = |index| match choice {
        Choice::Fits { index: fits, .. } if fits == index => 1,
        _ if index == 0 => 2,
        _ => 3,
    };
    let rows = settings.iter().enumerate().map(|(index, setting)| {
        let behind = vec![setting.number.into(), fate(index)];
        [vec![index as i64], sides(setting.limits), behind].concat()
    });
    assert_eq!(data.rows("boxes"), rows.collect::<Vec<_>>());
    let first = curve.search(settings[0].limits, depth, budget).unwrap();
    let stretch = match first {
        Verdict::Inside { .. } | Verdict::Spent { .. } => None,
        Verdict::Outside { depth, index, .. } | Verdict::Undecided { depth, index, .. } => {
            Some((depth.into(), index.into()))
        }
    };
    assert_eq!(data.numbers["stretches"], i64::from(stretch.is_some()));
    let numbers = ["depth", "index"].map(|name| data.numbers.get(name).copied());
    assert_eq!(
        numbers,
        stretch.map_or([None; 2], |(depth, index)| [Some(depth), Some(index)])
    );
    assert_eq!(data.words("answer").join(" "), words.join("  "));
}

/// The dipole's bounds are 61440 to 86528 and -44544 to 61440 steps.
const HOLDS: [i32; 4] = [61_440, 86_529, -44_544, 61_441];
const AWAY: [i32; 4] = [0, 61_440, -44_544, 61_441];
const TOUCHED: [i32; 4] = [61_440, 86_529, -44_544, 61_440];

#[test]
fn has_the_first_record_where_it_fits() {
    let words =
        "Setting 40 fits, record 0 of 2 (counted from 0): every load of the band lies in its box.";
    expect_list("fits", 6, 500, &settings(&[HOLDS, AWAY]), &[words]);
}

#[test]
fn has_the_stretch_where_the_first_box_was_left() {
    let fits =
        "Setting 41 fits, record 1 of 2 (counted from 0): every load of the band lies in its box.";
    let left = "Record 0, setting 40, fails first. A search of its box ends Outside at depth 0, index 0: on the stretch from 0/1 to 1/1 of the band no load lies in it.";
    expect_list("outside", 6, 500, &settings(&[AWAY, HOLDS]), &[fits, left]);
    let none =
        "None fits: of 1 record no walk ended Inside, at depth 3 and with 500 pieces for each.";
    let left = "Record 0, setting 40, fails first. A search of its box ends Undecided at depth 3, index 7: on the stretch from 7/8 to 8/8 of the band, at the depth limit, it is not known whether all loads lie in it.";
    expect_list("undecided", 3, 500, &settings(&[TOUCHED]), &[none, left]);
}

#[test]
fn has_no_stretch_where_the_budget_was_spent() {
    let none = "None fits: of 1 record no walk ended Inside, at depth 6 and with 1 piece for each.";
    let spent = "Record 0, setting 40, fails first. A search of its box ends Spent: after 1 piece not all was decided.";
    expect_list("spent", 6, 1, &settings(&[TOUCHED]), &[none, spent]);
}

#[test]
fn counts_the_boxes_that_are_not_shown() {
    let fits =
        "Setting 40 fits, record 0 of 3 (counted from 0): every load of the band lies in its box.";
    let beyond = [16_000_000, 16_000_001, 0, 1];
    let around = [-16_777_216, 16_777_216, -16_777_216, 16_777_216];
    let unshown = "Boxes around the whole frame: 1. Boxes beyond the frame: 1.";
    let boxes = settings(&[HOLDS, beyond, around]);
    expect_list("unshown", 6, 500, &boxes, &[fits, unshown]);
}

#[test]
fn counts_the_boxes_without_a_name() {
    let text = list(6, 500, &settings(&[HOLDS; 64]));
    let data = Data::of(&[&example("dipole.card"), &written("many", &text)]);
    let named = data.numbers["names"];
    assert_eq!(named as usize, data.blocks["names"].len());
    assert!(0 < named && named < 64);
    let unnamed = format!("Boxes without room for a name: {}.", 64 - named);
    assert!(data.words("answer").join(" ").ends_with(&unnamed));
}

/// A region with −50 ohms in it is not filled, and what is not drawn has no name.
#[test]
fn says_which_readings_the_chart_does_not_show() {
    let pole = constant("pole.card", [-51_200, -51_200, 0, 0]);
    assert_eq!((pole.numbers["regions"], pole.numbers["ends"]), (0, 0));
    let beyond = "17 readings beyond this part of the plane";
    let open = "17 readings with −50 ohm, filling all outside of the outline";
    assert_eq!(pole.words("beyond"), [beyond, open]);
    let all = constant(
        "all.card",
        [-16_777_216, 16_777_216, -16_777_216, 16_777_216],
    );
    assert_eq!((all.numbers["regions"], all.numbers["ends"]), (0, 1));
    assert_eq!(all.words("beyond"), ["", open]);
    let far = constant("far.card", [-30_000, -29_900, -3_000, -2_900]);
    assert_eq!((far.numbers["regions"], far.numbers["ends"]), (17, 0));
    assert_eq!(far.words("beyond"), [beyond, ""]);
}
