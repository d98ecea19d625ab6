//! Slips of change request 4.

use super::{Slip, is_caught};

/// An odd multiple of 2^-10 is a tie, and one step further away no longer.
#[test]
fn ties_away_from_zero() {
    let slip = Slip {
        name: "ties-away-from-zero",
        file: "page.rs",
        text: "    let text = format!(\"{x:.9}\");\n",
        slip: "    let tie = (x * 1024.0 % 2.0).abs() == 1.0;\n    \
               let x = f64::from_bits(x.to_bits() + u64::from(tie));\n    \
               let text = format!(\"{x:.9}\");\n",
    };
    is_caught(slip, &["generated-decimals", "kept-tie"]);
}

#[test]
fn rounding_the_rounded_product() {
    let slip = Slip {
        name: "rounding-the-rounded-product",
        file: "page.rs",
        text: "    let text = format!(\"{x:.9}\");\n",
        slip: "    let text = format!(\"{:.9}\", (x * 1.0e9).round_ties_even() / 1.0e9);\n",
    };
    is_caught(slip, &["generated-decimals", "kept-beside-tie"]);
}

#[test]
fn the_minus_lost_where_it_rounds_to_zero() {
    let slip = Slip {
        name: "the-minus-lost-where-it-rounds-to-zero",
        file: "page.rs",
        text: "    let text = format!(\"{x:.9}\");\n",
        slip: "    let text = format!(\"{x:.9}\").replace(\"-0.000000000\", \"0.000000000\");\n",
    };
    is_caught(slip, &["generated-decimals", "kept-minus"]);
}

#[test]
fn asterisks_where_it_just_fits() {
    let slip = Slip {
        name: "asterisks-where-it-just-fits",
        file: "page.rs",
        text: "Some(blanks) if x.is_finite()",
        slip: "Some(blanks) if x.is_finite() && blanks > 0",
    };
    is_caught(slip, &["generated-decimals", "kept-longest"]);
}

#[test]
fn decimals_a_column_early() {
    let slip = Slip {
        name: "decimals-a-column-early",
        file: "page.rs",
        text: "(26, &decimal(bits))",
        slip: "(25, &decimal(bits))",
    };
    is_caught(slip, &["generated-pages", "kept-columns"]);
}

#[test]
fn the_room_tested_before_the_number() {
    let slip = Slip {
        name: "the-room-tested-before-the-number",
        file: "page.rs",
        text: "        return -43;\n",
        slip: "        return if text.len() < LINE { -42 } else { -43 };\n",
    };
    is_caught(slip, &["generated-pages", "kept-page-before-room"]);
}

#[test]
fn a_page_more_behind_a_full_one() {
    let slip = Slip {
        name: "a-page-more-behind-a-full-one",
        file: "page.rs",
        text: "count.div_ceil(ANGLES).max(1) as u64",
        slip: "(count / ANGLES + 1) as u64",
    };
    is_caught(slip, &["kept-full-page"]);
}

#[test]
fn no_page_without_angles() {
    let slip = Slip {
        name: "no-page-without-angles",
        file: "page.rs",
        text: "count.div_ceil(ANGLES).max(1) as u64",
        slip: "count.div_ceil(ANGLES) as u64",
    };
    is_caught(slip, &["generated-pages", "kept-no-angle"]);
}

#[test]
fn places_counted_from_the_start_of_the_page() {
    let slip = Slip {
        name: "places-counted-from-the-start-of-the-page",
        file: "page.rs",
        text: "        text.extend(line(index + 1, ",
        slip: "        text.extend(line(index % ANGLES + 1, ",
    };
    is_caught(slip, &["generated-pages", "kept-place"]);
}

#[test]
fn bytes_of_the_request_as_the_name_of_edition_1() {
    let slip = Slip {
        name: "bytes-of-the-request-as-the-name-of-edition-1",
        file: "page.rs",
        text: "    let name = request[CORE..].iter();\n",
        slip: "    let name = request[CORE.min(request.len() - 32)..].iter();\n",
    };
    is_caught(slip, &["generated-pages", "kept-nameless"]);
}
