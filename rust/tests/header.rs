//! The C header's names, reasons, functions and version are this crate's.

use cueledger::Refusal;

const HEADER: &str = include_str!("../../include/cueledger.h");
const EXPORTS: &str = include_str!("../src/ffi.rs");

/// `OutOfBounds` as `CUE_OUT_OF_BOUNDS`.
fn c_name(refusal: Refusal) -> String {
    let name = format!("{refusal:?}");
    name.chars().fold("CUE".to_string(), |c_name, c| if c.is_uppercase() { c_name + "_" + &c.to_string() } else { c_name + &c.to_uppercase().to_string() })
}

/// `order: *mut i64` as `int64_t *order`.
fn c_parameter(parameter: &str) -> String {
    let (name, of) = parameter.split_once(": ").unwrap();
    let (before, of, star) = match of.split_once(' ') {
        Some(("*const", of)) => ("const ", of, "*"),
        Some(("*mut", of)) => ("", of, "*"),
        _ => ("", of, ""),
    };
    let c_type = match of {
        "usize" => "size_t".to_string(),
        _ => of.replace('i', "int").replace('u', "uint") + "_t",
    };
    format!("{before}{c_type} {star}{}", name.trim_start_matches("r#"))
}

#[test]
fn refusals() {
    for refusal in Refusal::ALL {
        let name = c_name(refusal);
        for line in [format!("{name} = {}", refusal.number()), format!("case {name}: return \"{}\";", refusal.reason())] {
            assert!(HEADER.contains(&line), "include/cueledger.h has no `{line}`");
        }
    }
    // no `Refusal`: what was recorded stands
    for line in ["CUE_LOG_FULL = 23,", "case CUE_LOG_FULL: return \"log has no space for the next record\";"] {
        assert!(HEADER.contains(line), "include/cueledger.h has no `{line}`");
    }
    assert_eq!(HEADER.matches("    case CUE_").count(), Refusal::ALL.len() + 2, "accepted, a full log, and these");
}

#[test]
fn functions() {
    let exports: Vec<_> = EXPORTS.split("pub fn ").skip(1).map(|export| export.split_once(") -> u32;").unwrap().0.split_once('(').unwrap()).collect();
    for (name, parameters) in &exports {
        let parameters: Vec<_> = parameters.split(',').map(str::trim).filter(|parameter| !parameter.is_empty()).map(c_parameter).collect();
        let line = format!("\nuint32_t {name}({});\n", parameters.join(", "));
        assert!(HEADER.contains(&line), "include/cueledger.h has no `{}`", line.trim());
    }
    assert_eq!(HEADER.matches("\nuint32_t cue_").count(), exports.len());
}

#[test]
fn version() {
    for (part, number) in [("MAJOR", env!("CARGO_PKG_VERSION_MAJOR")), ("MINOR", env!("CARGO_PKG_VERSION_MINOR")), ("PATCH", env!("CARGO_PKG_VERSION_PATCH"))] {
        assert!(HEADER.contains(&format!("#define CUE_VERSION_{part} {number}\n")), "CUE_VERSION_{part} is not {number}");
    }
    assert!(HEADER.contains(&format!("#define CUE_VERSION \"{}\"\n", env!("CARGO_PKG_VERSION"))));
}
