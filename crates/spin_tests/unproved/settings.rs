//! Good lines and texts are read, and of a bad text the first bad line is told.
use crate::equal::equal;
use spin_examples::settings::{BadLine, Setting, Settings};

#[test]
fn a_line_sets_one_thing_or_nothing(rt: HostRuntime) {
    for (line, setting) in [
        ("port = 8080", Some(Setting::Port(8080))),
        ("port = 65535", Some(Setting::Port(65535))),
        ("port = 65536", None),
        ("workers = 65536", Some(Setting::Workers(65536))),
        ("workers = 007", Some(Setting::Workers(7))),
        ("workers = +7", Some(Setting::Workers(7))),
        ("workers = -7", None),
        ("workers = ", None),
        ("verbose = true", Some(Setting::Verbose(true))),
        ("verbose = false", Some(Setting::Verbose(false))),
        ("verbose = 1", None),
        ("port=8080", None),
        (" port = 8080", None),
        ("colour = 7", None),
        ("", None),
    ] {
        equal(&rt, (line, Setting::of_line(line)), (line, setting));
    }
}

#[test]
fn a_text_has_settings_or_a_first_bad_line(rt: HostRuntime) {
    let settings = Settings {
        port: 80,
        workers: 1,
        verbose: true,
    };
    for (text, answer) in [
        ("", Ok(Settings::default())),
        ("port = 80\nverbose = true", Ok(settings)),
        ("verbose = true\r\nport = 80\r\n", Ok(settings)),
        ("port = 8\nport = 80\nverbose = true\n", Ok(settings)),
        ("port = 80\n\nverbose = true", Err(BadLine { number: 2 })),
        ("verbose = yes\nport = x", Err(BadLine { number: 1 })),
        (
            "port = 80\nworkers = 1\nworker = 2",
            Err(BadLine { number: 3 }),
        ),
    ] {
        equal(&rt, (text, text.parse::<Settings>()), (text, answer));
    }
}
