//! Outside solvers, where they are installed: glpsol, cbc and minizinc with gecode, on one ring of each family. They are asked for the weight and
//! the count of the best bag; the last tie, which pan differs first, is left to the engines.
use crate::engines::{Engine, Rooms};
use crate::families::Family;
use crate::ring::Ring;
use std::process::Command;
use std::time::Instant;

/// How long a solver may take for one ring.
const SECONDS: u32 = 10;

/// The ring as a program of 0s and 1s: 32 times the weight and the count are to be least.
fn linear(r: &Ring) -> String {
    let terms = |f: &dyn Fn(usize) -> u64| (0..r.weights.len()).map(|i| format!(" + {} x{i}", f(i))).collect::<String>();
    let weight = |i: usize| r.weights[i] as u64;
    let names: String = (0..r.weights.len()).map(|i| format!(" x{i}")).collect();
    format!(
        "Minimize\n cost:{}\nSubject To\n low:{} >= {}\n high:{} <= {}\n few:{} <= {}\nBinary\n{}\nEnd\n",
        terms(&|i| 32 * weight(i) + 1), terms(&weight), r.rule[0], terms(&weight), r.rule[0] + r.rule[1], terms(&|_| 1), r.rule[2], names
    )
}

fn modelled(r: &Ring) -> String {
    format!(
        "array[1..{n}] of int: w = {w:?};\narray[1..{n}] of var 0..1: x;\nvar int: g = sum(i in 1..{n})(w[i]*x[i]);\nvar int: c = sum(x);\nconstraint g >= {t} /\\ g <= {u} /\\ c <= {p};\nsolve minimize 32*g + c;\noutput [\"cost \\(32*g + c)\\n\"];\n",
        n = r.weights.len(), w = r.weights, t = r.rule[0], u = r.rule[0] + r.rule[1], p = r.rule[2]
    )
}

fn installed(program: &str) -> bool {
    Command::new("sh").args(["-c", &format!("command -v {program} > /dev/null")]).status().is_ok_and(|s| s.success())
}

/// What a solver says of a ring.
enum Said {
    Least(u64),
    NoChoice,
    /// No proved answer within the seconds that it was given.
    Nothing,
}

/// Runs a solver on a ring, and gives all that it said.
fn asked(program: &str, r: &Ring, folder: &std::path::Path) -> String {
    let (model, said) = (folder.join("ring"), folder.join("said"));
    let (m, s) = (model.to_str().unwrap(), said.to_str().unwrap());
    let seconds = SECONDS.to_string();
    let _ = std::fs::remove_file(&said);
    let out = match program {
        "glpsol" => {
            std::fs::write(&model, linear(r)).unwrap();
            Command::new(program).args(["--lp", m, "--tmlim", &seconds, "-o", s]).output()
        }
        "cbc" => {
            let model = folder.join("ring.lp");
            std::fs::write(&model, linear(r)).unwrap();
            Command::new(program).args([model.to_str().unwrap(), "sec", &seconds, "ratio", "0", "allow", "0", "solve", "solution", s]).output()
        }
        _ => {
            let model = folder.join("ring.mzn");
            std::fs::write(&model, modelled(r)).unwrap();
            let limit = (SECONDS * 1000).to_string();
            Command::new(program).args(["--solver", "gecode", "--time-limit", &limit, model.to_str().unwrap()]).output()
        }
    };
    let printed = out.map(|o| String::from_utf8_lossy(&o.stdout).into_owned()).unwrap_or_default();
    printed + &std::fs::read_to_string(&said).unwrap_or_default()
}

/// The number behind a word that begins a line.
fn behind(text: &str, word: &str) -> Option<u64> {
    let line = text.lines().rfind(|l| l.trim_start().starts_with(word))?;
    line.split_whitespace().filter_map(|word| word.parse::<f64>().ok()).next_back().map(|c| c.round() as u64)
}

fn least(program: &str, text: &str) -> Said {
    let (found, none, cost) = match program {
        "glpsol" => ("INTEGER OPTIMAL", "NO PRIMAL FEASIBLE", "Objective:"),
        "cbc" => ("Optimal - objective value", "nfeasible", "Optimal - objective value"),
        _ => ("==========", "=====UNSATISFIABLE=====", "cost"),
    };
    if text.contains(none) || (program == "glpsol" && text.contains("INTEGER EMPTY")) {
        return Said::NoChoice;
    }
    if !text.contains(found) {
        return Said::Nothing;
    }
    behind(text, cost).map_or(Said::Nothing, Said::Least)
}

/// What a solver's answer is beside ours; ends the run where it is better, or finds what we say is not there.
fn beside(said: Said, ours: Option<u64>) -> String {
    match (said, ours) {
        (Said::Nothing, _) => "no answer in time".into(),
        (Said::Least(cost), Some(least)) if cost > least => format!("worse by {}", cost - least),
        (Said::Least(cost), Some(least)) if cost == least => "agrees".into(),
        (Said::NoChoice, None) => "agrees".into(),
        (Said::NoChoice, Some(_)) => "finds no choice".into(),
        (Said::Least(cost), ours) => panic!("a solver finds {cost}, and we {ours:?}"),
    }
}

/// `halves` has the median of the proved halves over each family, in microseconds.
pub fn compare(all: &[Family], halves: &[f64], rooms: &mut Rooms) {
    println!("\n## Outside solvers\n");
    let programs: Vec<&str> = ["glpsol", "cbc", "minizinc"].into_iter().filter(|p| installed(p)).collect();
    if programs.is_empty() {
        println!("None of glpsol, cbc and minizinc is installed here.");
        return;
    }
    println!("The first ring of each family: milliseconds with the start of the program, at most {SECONDS} seconds, and in brackets how many times the proved halves' median that is. They are asked for the least of 32 times the weight and the count; what is worse is so by their tolerance.\n");
    println!("| family | {} |\n|---|{}", programs.join(" | "), "---|".repeat(programs.len()));
    let folder = std::env::temp_dir().join(format!("bench-solvers-{}", std::process::id()));
    std::fs::create_dir_all(&folder).unwrap();
    for (family, micros) in all.iter().zip(halves).filter(|(f, _)| f.pans == 24 && !f.name.starts_with("a season")) {
        let ring = &family.rings[0];
        let ours = rooms.best(Engine::Halves, ring).map(|(pans, weight)| 32 * weight as u64 + pans.count_ones() as u64);
        let cells: Vec<String> = programs
            .iter()
            .map(|program| {
                let from = Instant::now();
                let said = least(program, &asked(program, ring, &folder));
                let millis = from.elapsed().as_secs_f64() * 1e3;
                format!("{}, {millis:.0} ({:.0})", beside(said, ours), millis * 1e3 / micros)
            })
            .collect();
        println!("| {} | {} |", family.name, cells.join(" | "));
    }
    std::fs::remove_dir_all(&folder).unwrap();
}
