//! Walk and jump over blocks and steps.

use calmbaize::{jump, slices, walk, Ground, Step, MAX_COUNT, MAX_STEPS};

const START: [u8; 128] = [0x5e; 128];

#[test]
fn each_step_is_its_byte() {
    let steps = [
        Step::Alpha,
        Step::Beta,
        Step::Gamma,
        Step::AlphaBack,
        Step::BetaBack,
        Step::GammaBack,
    ];
    for (byte, step) in (1..).zip(steps) {
        let mut reached = [0; 128];
        slices::walk(&START, &[byte], &mut reached).unwrap();
        assert_eq!(walk(&START, &[step]), Ok(reached));
    }
    assert_eq!(walk(&START, &steps), Ok(START));
}

#[test]
fn counts_go_to_their_steps() {
    let walked = walk(&START, &[Step::Alpha, Step::BetaBack, Step::BetaBack]);
    assert_eq!(jump(&START, 1, -2, 0), walked);
    let walked = walk(&START, &[Step::Gamma; 3]);
    assert_eq!(jump(&START, 0, 0, 3), walked);
}

#[test]
fn limits() {
    assert!(walk(&START, &[Step::Alpha; MAX_STEPS]).is_ok());
    let long = walk(&START, &[Step::Alpha; MAX_STEPS + 1]);
    assert_eq!(long, Err(Ground::TooManySteps.into()));
    assert!(jump(&START, -MAX_COUNT, 0, MAX_COUNT).is_ok());
    assert_eq!(jump(&START, 0, MAX_COUNT + 1, 0), Err(Ground::Count.into()));
}
