//! The calls of scripts, as they are played.

// Each test takes from here what it needs.
#![allow(dead_code)]

use reference::answer::Answer;
use reference::desk::Desk;
use reference::generate::Script;
use reference::script::Call;

/// Calls of one scene of scripts, each with the desk that it found and its answer.
pub fn calls_of(scene: &str) -> Vec<(Call, Desk, Answer)> {
    calls_of_scripts(scene, (0..300).map(|seed| (seed, 100)))
}

/// The same of scripts of these seeds and numbers of calls.
pub fn calls_of_scripts(
    scene: &str,
    scripts: impl Iterator<Item = (u64, usize)>,
) -> Vec<(Call, Desk, Answer)> {
    let mut found = vec![];
    for (seed, calls) in scripts {
        let script = Script::generate(seed, calls);
        let mut desk = Desk::fresh();
        for (call, &name) in script.calls.iter().zip(&script.scenes) {
            let before = desk.clone();
            let answer = desk.call(call);
            if name == scene {
                found.push((call.clone(), before, answer));
            }
        }
    }
    found
}
