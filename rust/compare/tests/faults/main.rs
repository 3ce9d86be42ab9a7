//! The comparison can fail: one fault put into one side is found by the part
//! that should find it, and the case is reduced.

mod blocks;
mod diagnosis;
mod explanations;
mod fault;
mod inspections;
mod lists;
mod merged_texts;
mod merging;
mod observations;
mod operators;
mod passing;
mod pem_h;
mod pixel_maps;
mod plans;
mod reports;
mod text_lists;
mod words;

use compare::parts::PARTS;
use fault::Fault;

#[test]
fn faults_in_words_and_ticks_are_found() {
    words::FAULTS.iter().for_each(Fault::must_be_found);
}

#[test]
fn faults_in_lists_are_found() {
    lists::FAULTS.iter().for_each(Fault::must_be_found);
}

#[test]
fn faults_in_plans_are_found() {
    plans::FAULTS.iter().for_each(Fault::must_be_found);
}

#[test]
fn faults_in_reports_are_found() {
    reports::FAULTS.iter().for_each(Fault::must_be_found);
}

#[test]
fn faults_in_text_lists_are_found() {
    text_lists::FAULTS.iter().for_each(Fault::must_be_found);
}

#[test]
fn faults_in_inspections_are_found() {
    inspections::FAULTS.iter().for_each(Fault::must_be_found);
}

#[test]
fn faults_in_blocks_are_found() {
    blocks::FAULTS.iter().for_each(Fault::must_be_found);
}

#[test]
fn faults_in_requests_are_found() {
    pem_h::FAULTS.iter().for_each(Fault::must_be_found);
}

#[test]
fn faults_in_pixel_maps_are_found() {
    pixel_maps::FAULTS.iter().for_each(Fault::must_be_found);
}

#[test]
fn faults_in_passing_on_are_found() {
    passing::FAULTS.iter().for_each(Fault::must_be_found);
}

#[test]
fn faults_in_answers_about_operators_are_found() {
    operators::FAULTS.iter().for_each(Fault::must_be_found);
}

#[test]
fn faults_in_observations_are_found() {
    observations::FAULTS.iter().for_each(Fault::must_be_found);
}

#[test]
fn faults_in_merging_are_found() {
    merging::FAULTS.iter().for_each(Fault::must_be_found);
}

#[test]
fn faults_in_merged_texts_are_found() {
    merged_texts::FAULTS.iter().for_each(Fault::must_be_found);
}

#[test]
fn faults_in_answers_about_words_are_found() {
    diagnosis::FAULTS.iter().for_each(Fault::must_be_found);
}

#[test]
fn faults_in_explanations_are_found() {
    explanations::FAULTS.iter().for_each(Fault::must_be_found);
}

#[test]
#[should_panic(expected = "not found in 65536 comparisons")]
fn without_a_fault_nothing_is_found() {
    let no_fault = Fault {
        put: |_| {},
        ..words::FAULTS[0]
    };
    no_fault.must_be_found();
}

#[test]
fn every_part_has_a_fault_to_find() {
    let faults = [
        words::FAULTS,
        lists::FAULTS,
        plans::FAULTS,
        reports::FAULTS,
        text_lists::FAULTS,
        inspections::FAULTS,
        blocks::FAULTS,
        pem_h::FAULTS,
        pixel_maps::FAULTS,
        passing::FAULTS,
        operators::FAULTS,
        observations::FAULTS,
        merging::FAULTS,
        merged_texts::FAULTS,
        diagnosis::FAULTS,
        explanations::FAULTS,
    ]
    .concat();
    for part in PARTS {
        let has_fault = faults.iter().any(|fault| fault.part == part.name);
        assert!(has_fault, "{}", part.name);
    }
}
