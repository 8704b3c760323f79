//! The oracle's command line. Errors are one line on standard error.

mod options;

use std::io::{Read, Write};
use std::path::{Path, PathBuf};
use std::process::ExitCode;

use options::Options;
use oracle::generate::{self, FAMILIES, Family};
use oracle::prediction::driver::Machine;
use oracle::run::run;
use oracle::{compare, sample, text};

const HELP: &str = "\
oracle: the Rust that the port is held against, over the scripts of document 01

  oracle run [--kinds store|all] [FILE]         the reply lines of a script
  oracle words [--binary] [--kinds ..] [FILE]   store, set, subsets and conflicting alternatives at its end:
                                                a line with name and length, then each word that is not 0
                                                with its place; or all 8,454 words as little-endian bytes
  oracle assemble [FILE]                        text to bytes (bytes pass unchanged)
  oracle disassemble [FILE]                     bytes to text
  oracle generate --seed S --index I [--family NAME] [--kinds ..] [--text]     one generated script
  oracle generate --families                    the families' names
  oracle compare --program PROG [--scripts N] [--heavy H] [--seed S] [--kinds ..] [--words R] [--args WORD ..]
                                                N generated scripts, H more with heavy merges and every word of
                                                up to R records through the oracle and through PROG WORD .., one
                                                process a script
  oracle record --scripts N --seed S --max-bytes B [--kinds ..] [--out FILE]
                                                scripts with their answers, for `replay`
  oracle help

A FILE is text or bytes: it is text if it is UTF-8 without control characters. Standard input is bytes to
'run', 'words' and 'disassemble', and either to 'assemble'. With '--kinds store' only singleton, merge and
show are known kinds.
";

fn main() -> ExitCode {
    let mut words: Vec<String> = std::env::args().skip(1).collect();
    let verb = if words.is_empty() { "help".to_owned() } else { words.remove(0) };
    match run_verb(&verb, Options::new(words)) {
        Ok(status) => status,
        Err(fault) => {
            eprintln!("oracle: {fault}");
            ExitCode::from(2)
        }
    }
}

fn run_verb(verb: &str, options: Options) -> Result<ExitCode, String> {
    match verb {
        "run" => run_script(options),
        "words" => print_words(options),
        "assemble" => assemble(options),
        "disassemble" => disassemble(options),
        "generate" => generate_script(options),
        "compare" => compare_program(options),
        "record" => record_sample(options),
        "help" | "--help" | "-h" => print(HELP.as_bytes()),
        other => Err(format!("unknown verb '{other}': try 'oracle help'")),
    }
}

fn run_script(mut options: Options) -> Result<ExitCode, String> {
    let kinds = options.kinds()?;
    let script = read_script(options.file()?)?;
    print(&run(&script, kinds).lines)
}

fn print_words(mut options: Options) -> Result<ExitCode, String> {
    let kinds = options.kinds()?;
    let binary = options.flag("--binary");
    let script = read_script(options.file()?)?;
    let areas = areas(&run(&script, kinds).machine);
    if binary {
        let words = areas.iter().flat_map(|(_, words)| words);
        return print(&words.flat_map(|word| word.to_le_bytes()).collect::<Vec<u8>>());
    }
    let mut lines = String::new();
    for (name, words) in areas {
        lines.push_str(&format!("{name} {}\n", words.len()));
        for (place, word) in words.iter().enumerate().filter(|(_, word)| **word != 0) {
            lines.push_str(&format!("{place} {word}\n"));
        }
    }
    print(lines.as_bytes())
}

fn areas(machine: &Machine) -> [(&'static str, Vec<u32>); 4] {
    [
        ("store", machine.store_words()),
        ("set", machine.set_words()),
        ("subsets", machine.subset_words()),
        ("conflicts", machine.conflict_words()),
    ]
}

fn assemble(mut options: Options) -> Result<ExitCode, String> {
    let file = options.file()?;
    let name = file.clone();
    let script = text::script_of(read_bytes(file)?).map_err(|fault| named(name.as_deref(), &fault))?;
    print(&script)
}

fn disassemble(mut options: Options) -> Result<ExitCode, String> {
    let script = read_bytes(options.file()?)?;
    print(text::disassemble(&script).as_bytes())
}

fn generate_script(mut options: Options) -> Result<ExitCode, String> {
    if options.flag("--families") {
        options.end()?;
        let names: Vec<&str> = FAMILIES.iter().map(|family| family.name).collect();
        return print(format!("{}\n", names.join("\n")).as_bytes());
    }
    let kinds = options.kinds()?;
    let (seed, index) = (options.number("--seed", 1)?, options.number("--index", 0)?);
    let as_text = options.flag("--text");
    let family = options.value("--family")?;
    options.end()?;
    let made = match family {
        None => generate::script(seed, index, kinds),
        Some(name) => generate::script_of(family_named(&name)?, seed, index, kinds),
    };
    if !as_text {
        return print(&made.script);
    }
    let heading = format!("# script {index} of seed {seed}, family '{}'\n", made.family);
    print((heading + &text::disassemble(&made.script)).as_bytes())
}

fn family_named(name: &str) -> Result<&'static Family, String> {
    let named = FAMILIES.iter().find(|family| family.name == name);
    named.ok_or_else(|| format!("no family is named '{name}': try 'oracle generate --families'"))
}

fn compare_program(mut options: Options) -> Result<ExitCode, String> {
    let args = options.rest("--args");
    let program = options.value("--program")?.ok_or("'compare' lacks its --program")?;
    let plan = compare::Plan {
        program: PathBuf::from(program),
        args,
        kinds: options.kinds()?,
        seed: options.number("--seed", 1)?,
        scripts: options.number("--scripts", 1_000)?,
        words: options.number("--words", 0)?,
        heavy: options.number("--heavy", 0)?,
    };
    options.end()?;
    let outcome = compare::compare(&plan);
    match outcome.difference {
        None => print(format!("{} scripts, 0 differences\n", outcome.scripts).as_bytes()),
        Some(report) => print(report.as_bytes()).map(|_| ExitCode::FAILURE),
    }
}

fn record_sample(mut options: Options) -> Result<ExitCode, String> {
    let plan = sample::Plan {
        kinds: options.kinds()?,
        seed: options.number("--seed", 1)?,
        scripts: options.number("--scripts", 1_000)?,
        most_bytes: options.number("--max-bytes", 1_000_000)?,
    };
    let out = options.value("--out")?;
    options.end()?;
    let sample = sample::record(&plan);
    eprintln!("oracle: {} scripts, {} bytes", sample.scripts, sample.bytes.len());
    match out {
        None => print(&sample.bytes),
        Some(out) => std::fs::write(&out, &sample.bytes)
            .map(|()| ExitCode::SUCCESS)
            .map_err(|fault| format!("{out}: {fault}")),
    }
}

/// A file is text or bytes; standard input is bytes.
fn read_script(file: Option<PathBuf>) -> Result<Vec<u8>, String> {
    let Some(file) = file else {
        return read_bytes(None);
    };
    text::script_of(read_bytes(Some(file.clone()))?).map_err(|fault| named(Some(&file), &fault))
}

fn read_bytes(file: Option<PathBuf>) -> Result<Vec<u8>, String> {
    let mut bytes = Vec::new();
    match &file {
        Some(file) => std::fs::read(file).map(|read| bytes = read),
        None => std::io::stdin().read_to_end(&mut bytes).map(drop),
    }
    .map(|()| bytes)
    .map_err(|fault| named(file.as_deref(), &fault))
}

fn named(file: Option<&Path>, fault: &dyn std::fmt::Display) -> String {
    match file {
        Some(file) => format!("{}: {fault}", file.display()),
        None => format!("standard input: {fault}"),
    }
}

/// A reader that has seen enough and went away is no error.
fn print(bytes: &[u8]) -> Result<ExitCode, String> {
    let mut out = std::io::stdout().lock();
    match out.write_all(bytes).and_then(|()| out.flush()) {
        Err(fault) if fault.kind() != std::io::ErrorKind::BrokenPipe => {
            Err(format!("standard output: {fault}"))
        }
        _ => Ok(ExitCode::SUCCESS),
    }
}
