//! Every case with a known answer, against each implementation.
use outside::baseline::Baseline;
use outside::cases::{all, ask_classes, ask_logs, ask_marks, ask_reader, ask_resolvers, ask_samples};
use outside::cases::{ask_tables, ask_tallies, ask_trees, Case, Layer};
use outside::reference::Reference;

fn hold(layer: Layer, ask: impl Fn(&Case) -> String) {
    let cases: Vec<Case> = all().into_iter().filter(|case| case.layer() == layer).collect();
    assert!(cases.len() > 80, "too few cases");
    let wrong: Vec<String> = cases
        .iter()
        .filter_map(|case| {
            let answer = ask(case);
            (answer != case.answer).then(|| format!("{} {}: {answer}, not {}", case.place, case.words[0], case.answer))
        })
        .collect();
    assert!(wrong.is_empty(), "{} of {} wrong:\n{}", wrong.len(), cases.len(), wrong.join("\n"));
}

macro_rules! hold_to_cases {
    ($name:ident, $implementation:ty) => {
        mod $name {
            use super::*;

            #[test]
            fn reader() {
                hold(Layer::Reader, ask_reader::<$implementation>);
            }

            #[test]
            fn tables() {
                hold(Layer::Tables, ask_tables::<$implementation>);
            }

            #[test]
            fn classes() {
                hold(Layer::Classes, ask_classes::<$implementation>);
            }

            #[test]
            fn trees() {
                hold(Layer::Trees, ask_trees::<$implementation>);
            }

            #[test]
            fn resolvers() {
                hold(Layer::Resolvers, ask_resolvers::<$implementation>);
            }

            #[test]
            fn tallies() {
                hold(Layer::Tallies, ask_tallies::<$implementation>);
            }

            #[test]
            fn logs() {
                hold(Layer::Logs, ask_logs::<$implementation>);
            }

            #[test]
            fn samples() {
                hold(Layer::Samples, ask_samples::<$implementation>);
            }

            #[test]
            fn marks() {
                hold(Layer::Marks, ask_marks::<$implementation>);
            }
        }
    };
}

hold_to_cases!(reference, Reference);
hold_to_cases!(baseline, Baseline);

mod ours {
    #[cfg(any(
        feature = "alert_info",
        feature = "signal_table",
        feature = "small_machine",
        feature = "tree_table",
        feature = "resolver",
        feature = "tally",
        feature = "call_log",
        feature = "sample_value",
        feature = "table_kept"
    ))]
    use super::*;

    #[cfg(feature = "alert_info")]
    #[test]
    fn reader() {
        hold(Layer::Reader, ask_reader::<outside::ours::Ours>);
    }

    #[cfg(feature = "signal_table")]
    #[test]
    fn tables() {
        hold(Layer::Tables, ask_tables::<outside::ours::Ours>);
    }

    #[cfg(feature = "small_machine")]
    #[test]
    fn classes() {
        hold(Layer::Classes, ask_classes::<outside::ours::Ours>);
    }

    #[cfg(feature = "tree_table")]
    #[test]
    fn trees() {
        hold(Layer::Trees, ask_trees::<outside::ours::Ours>);
    }

    #[cfg(feature = "resolver")]
    #[test]
    fn resolvers() {
        hold(Layer::Resolvers, ask_resolvers::<outside::ours::Ours>);
    }

    #[cfg(feature = "tally")]
    #[test]
    fn tallies() {
        hold(Layer::Tallies, ask_tallies::<outside::ours::Ours>);
    }

    #[cfg(feature = "call_log")]
    #[test]
    fn logs() {
        hold(Layer::Logs, ask_logs::<outside::ours::Ours>);
    }

    #[cfg(feature = "sample_value")]
    #[test]
    fn samples() {
        hold(Layer::Samples, ask_samples::<outside::ours::Ours>);
    }

    #[cfg(feature = "table_kept")]
    #[test]
    fn marks() {
        hold(Layer::Marks, ask_marks::<outside::ours::Ours>);
    }
}
