//! What `prices` prints, by figures that are worked out by hand.

use bill::report;

/// The amounts of a case, or the words behind its item.
fn case(number: usize) -> Vec<String> {
    report::prices()
        .lines()
        .filter_map(|row| {
            let (its_number, rest) = row.split_once(' ')?;
            let (_, price) = rest.split_once(' ')?;
            (its_number == number.to_string()).then(|| String::from(price))
        })
        .collect()
}

#[test]
fn ten_rows_for_each_of_27_cases() {
    let printed = report::prices();
    assert!(printed.starts_with("case item millicents\n1 1 15550000\n"));
    assert!(printed.ends_with('\n'));
    assert_eq!(printed.lines().count(), 1 + 270);
    for number in 1..=27 {
        assert_eq!(case(number).len(), 10);
    }
}

/// 6,200,000 therms used; each critical day charges 200,000 at 2,000,000, so 31 of them are past
/// the limit.
#[test]
fn a_class_that_goes_too_far() {
    let fault = "refused 28 1 4 0";
    let expected = [
        "100000000",
        "43697600000",
        "0",
        fault,
        "0",
        "0",
        "0",
        "0",
        "0",
        fault,
    ];
    assert_eq!(case(19), expected);
}

/// Affordability at 2,000,000 on 6,200,000 therms is past the limit; daily balancing is 6,200,000
/// at 6,570.
#[test]
fn a_rider_that_goes_too_far() {
    let fault = "refused 28 1 7 3";
    let expected = [
        "100000000",
        "43697600000",
        "0",
        "40734000000",
        "0",
        "0",
        fault,
        "0",
        fault,
        "0",
    ];
    assert_eq!(case(20), expected);
}

#[test]
fn both_go_too_far() {
    let prices = case(21);
    assert_eq!(prices[3], "refused 28 1 4 0");
    assert_eq!(prices[6], "refused 28 1 7 3");
    assert_eq!(prices[8], "refused 28 1 7 3");
    assert_eq!(prices[9], "refused 28 1 4 0");
}

/// 6,200,000 therms are sold at 80 percent of 30,000 and at 1,000 on top.
#[test]
fn a_sum_of_items_below_zero_has_no_share() {
    let expected = [
        "100000000",
        "0",
        "0",
        "0",
        "-155000000000",
        "0",
        "0",
        "0",
        "0",
        "0",
    ];
    assert_eq!(case(27), expected);
}

/// The mixed November uses 31,545 therms: 30 * 940 and 13 * 465 less 90 * 30. It receives 33,255.
#[test]
fn the_mixed_november() {
    let prices = case(1);
    assert_eq!(prices[1], (12_421 * 31_545).to_string());
    // 1,710 therms are sold, past 2 percent of the use: 80 percent of 51,301,710 is 41,041,368,
    // and 1,710 * 1,200 on top.
    assert_eq!(prices[4], (-41_041_368 - 2_052_000).to_string());
    // On days 5 to 30, each fifth: 65, 90, 115, 140, 165 and 190 therms, the first at 320,500 and
    // the others at 621,000 and 500 more each time.
    let unauthorized =
        65 * 320_500 + 90 * 621_000 + 115 * 621_500 + 140 * 622_000 + 165 * 622_500 + 190 * 623_000;
    assert_eq!(prices[5], unauthorized.to_string());
}

/// Riders on the mixed November with 31,545 therms of use, from 15,550,000 and 391,820,445.
#[test]
fn riders_on_the_mixed_november() {
    // 137 per mille of 407,370,445 are 55,809,750.965.
    assert_eq!(case(10)[8], "55809751");
    assert_eq!(case(25)[8], (2 * 55_809_751).to_string());
    assert_eq!(case(12)[6], (1_234 * 31_545).to_string());
    assert_eq!(case(24)[6], (2_011 * 31_545).to_string());
    assert_eq!(case(13)[7], (7_786 * 31_545).to_string());
    assert_eq!(case(26)[7], (2 * 7_786 * 31_545).to_string());
}
