//! Says in German what is wrong with durations. Run it by
//! `cargo run --example german -- '5 mins' 1.5h`. It uses no words of the English line.
use duration_str::{Cause, Fault, Help, Options, parse_with};

fn problem(fault: &Fault<'_>) -> String {
    match fault.cause() {
        Cause::Empty => "leere Eingabe".to_string(),
        Cause::NumberTooLarge { .. } => "zu große Zahl".to_string(),
        Cause::Overflow { .. } => "mehr als 584 Jahre".to_string(),
        Cause::Mixed { .. } => "Summe und Produkt gemischt".to_string(),
        Cause::Syntax { place, expected } => {
            let column = fault.text()[..place].chars().count() + 1;
            let token = |token: &str| format!("„{}“", token.escape_debug());
            let found = fault.found().map_or("das Ende".to_string(), token);
            let unit = expected.unit_word.then_some("einer Einheit");
            let number = expected.number.then_some("einer Zahl");
            let operator = expected.operator.then_some("+ oder *");
            let end = expected.text_end.then_some("des Endes");
            let kinds = [unit, number, operator, end].into_iter().flatten();
            let kinds = kinds.collect::<Vec<_>>().join(" oder ");
            format!("Spalte {column}: {found} statt {kinds}")
        }
        _ => "keine Dauer".to_string(),
    }
}

fn words(help: Help) -> Option<&'static str> {
    let words = match help {
        Help::Units => "Einheiten: y, q, mon, w, d, h, min, s, ms, us, ns",
        Help::Fraction => "Zahlen haben nur Ziffern",
        Help::DigitsOnly => "Zahlen haben nur Ziffern",
        Help::ClockTime => "keine Uhrzeiten: 1h 30m oder 1m 30s",
        Help::Negative => "keine negativen Dauern",
        Help::LeadingPlus => "kein Plus am Anfang",
        Help::Iso8601 => "kein ISO 8601: zum Beispiel 1mon 30m",
        Help::OneDuration => "nur eine Dauer, ohne Komma oder Bindewort",
        Help::NoPoint => "Einheiten haben keinen Punkt",
        Help::Brackets => "keine Klammern",
        Help::Division => "Teilen geht nicht",
        Help::QuotationMarks => "ohne Anführungszeichen",
        Help::MissingUnit => "mit Einheit: y, q, mon, w, d, h, min, s, ms, us, ns",
        Help::Zero => "besser 0s",
        Help::LargeNumber => "mit Einheit, etwa ns",
        _ => return None, // A later version can have more.
    };
    Some(words)
}

fn main() {
    for text in std::env::args().skip(1) {
        if let Err(fault) = parse_with(&text, Options::off()) {
            let offer = fault
                .mended()
                .map(|mended| format!("besser „{}“", mended.escape_debug()));
            let advice = offer.or(fault.help().and_then(words).map(str::to_string));
            let end = advice.map_or(String::new(), |advice| format!(" ({advice})"));
            println!("{}{end}", problem(&fault));
        }
    }
}
