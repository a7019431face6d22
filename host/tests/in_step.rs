//! Labels are compared in step, up to the first difference: "two labels of 999 characters that differ in
//! the first take at most a tenth of the time of two equal ones." Those in Cyrillic letters take at most three times
//! as long as Latin ones of as many characters.

#[path = "../bench/comparison.rs"]
mod comparison;
#[path = "../bench/measure.rs"]
mod measure;

use host::entries;
use host::generate::long_labels::{self, Letters, LongLabels};
use host::second::{self, LONGEST_LABEL};

use comparison::{Times, TimesInLetters, MOST};

/// The labels are what they are said to be.
fn check(labels: &LongLabels) {
    let LongLabels {
        name,
        own,
        equal,
        unequal,
    } = labels;
    for label in [own, equal, unequal] {
        assert_eq!(label.chars().count(), LONGEST_LABEL, "{name}");
    }
    let differ = equal.chars().zip(unequal.chars()).filter(|(a, b)| a != b);
    assert_eq!(differ.count(), 1, "{name}");
    for (other, wanted) in [(equal, true), (unequal, false)] {
        let [own, other] = [own, other].map(String::as_bytes);
        assert_eq!(second::same_label(own, other), wanted, "{name}");
        assert_eq!(entries::same_label(own, other), u32::from(wanted), "{name}");
    }
}

/// The unequal labels take at most this, in times of the equal ones.
fn check_ratio(labels: &LongLabels, most: f64) {
    check(labels);
    let times = Times::of(labels, most);
    let line = format!("{}: {} ns", labels.name, times.shown().join(", "));
    println!("{line}");
    assert!(times.ratio() <= most, "over {most}, {line}");
}

#[test]
fn unequal_labels_take_a_tenth_of_the_time_of_equal_ones() {
    for labels in long_labels::all() {
        check_ratio(&labels, MOST);
    }
}

/// What stands after a later difference is not read either.
#[test]
fn a_later_difference_ends_the_comparison_too() {
    for place in [100, 250, 500] {
        let share = place as f64 / LONGEST_LABEL as f64;
        check_ratio(&long_labels::differing_at(place), share + 0.2);
    }
}

/// Equal labels, the first of the most characters.
fn check_letters(labels: &Letters) {
    let Letters { name, one, other } = labels;
    assert_eq!(one.chars().count(), LONGEST_LABEL, "{name}");
    let [one, other] = [one, other].map(String::as_bytes);
    assert!(second::same_label(one, other), "{name}");
    assert_eq!(entries::same_label(one, other), 1, "{name}");
}

#[test]
fn cyrillic_labels_take_at_most_three_times_as_long_as_latin_ones() {
    let labels = long_labels::in_letters();
    labels.iter().for_each(check_letters);
    let times = TimesInLetters::of(&labels);
    let shown = labels.iter().zip(times.0);
    let line: Vec<String> = shown
        .map(|(labels, time)| format!("{} {time:.1} ns", labels.name))
        .collect();
    let line = line.join("; ");
    println!("{line}");
    assert!(times.are_good(), "{:?} times, {line}", times.ratios());
}
