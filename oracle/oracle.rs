//! A second program for the same questions by another method, to check the comparer's answers.

mod automaton;
mod check;
mod language;
mod random;
mod text;

use automaton::{Decider, Verdict};
use text::{Grammar, Relation};

const HELP: &str = "\
oracle ask GRAMMAR LEFT RIGHT RELATION         included, or excluded and a hedge (rule numbers)
oracle member GRAMMAR RULE HEDGE RELATION      yes or no, from the definition of the language
oracle check GRAMMAR RELATION SCRIPT OUTPUT    disagreements with the output of `compare run`
oracle random SEED                             a small grammar
oracle script SEED GRAMMAR [HEDGE ...]         a script over all pairs of rules
oracle hedge SEED GRAMMAR RELATION             a hedge
oracle agree FIRST COUNT                       its own parts against each other on random grammars
";

fn read(file: &str) -> Result<Vec<u8>, String> {
    std::fs::read(file).map_err(|e| format!("{file}: {e}"))
}

fn grammar(file: &str) -> Result<Grammar, String> {
    text::grammar(&read(file)?).map_err(|fault| format!("{file}: {fault}"))
}

fn relation(g: &Grammar, called: &str) -> Result<Relation, String> {
    Relation::new(g, called).ok_or(format!("no such relation: {called}"))
}

fn rule(g: &Grammar, said: &str) -> Result<usize, String> {
    let number = text::number(said.as_bytes()).filter(|&k| k < g.rules.len());
    number.ok_or(format!("no such rule: {said}"))
}

fn seed(said: &str) -> Result<u64, String> {
    said.parse().map_err(|_| format!("no seed: {said}"))
}

/// Carries out a command and answers the status.
fn run(args: &[&str]) -> Result<i32, String> {
    match args {
        ["ask", file, left, right, called] => {
            let g = grammar(file)?;
            let r = relation(&g, called)?;
            let (a, b) = (rule(&g, left)?, rule(&g, right)?);
            match Decider::new(&g, &r).decide(a, b) {
                Verdict::Included => println!("included"),
                Verdict::TooLarge => {
                    println!("too large");
                    return Ok(3);
                }
                Verdict::Excluded(hedge) => {
                    let kept = language::member(&g, &r, a, &hedge) && !language::member(&g, &r, b, &hedge);
                    print!("excluded\n{}", hedge.text());
                    if !kept {
                        return Err("this hedge does not keep to the definition".to_string());
                    }
                    return Ok(1);
                }
            }
            Ok(0)
        }
        ["member", file, said, hedge, called] => {
            let g = grammar(file)?;
            let r = relation(&g, called)?;
            let hedge = text::hedge(&g, &read(hedge)?, 512).map_err(|fault| format!("{hedge}: {fault}"))?;
            let yes = language::member(&g, &r, rule(&g, said)?, &hedge);
            println!("{}", if yes { "yes" } else { "no" });
            Ok(!yes as i32)
        }
        ["check", file, called, script, output] => {
            let script = String::from_utf8_lossy(&read(script)?).into_owned();
            let output = String::from_utf8_lossy(&read(output)?).into_owned();
            let tally = check::check(&read(file)?, called, &script, &output);
            println!("{tally}");
            Ok((tally.differ > 0) as i32)
        }
        ["random", said] => {
            print!("{}", text::grammar_text(&random::grammar(seed(said)?)));
            Ok(0)
        }
        ["script", said, file, hedges @ ..] => {
            let hedges: Vec<String> = hedges.iter().map(|h| h.to_string()).collect();
            print!("{}", random::script(seed(said)?, &grammar(file)?, &hedges));
            Ok(0)
        }
        ["hedge", said, file, called] => {
            let g = grammar(file)?;
            print!("{}", random::hedge(seed(said)?, &g, &relation(&g, called)?).text());
            Ok(0)
        }
        ["agree", first, count] => {
            let (asked, excluded, differ) = check::agree(seed(first)?, seed(count)?);
            println!("{asked} questions, {excluded} excluded, {differ} differ");
            Ok((differ > 0) as i32)
        }
        _ => Err(HELP.to_string()),
    }
}

fn main() {
    // long hedges are split by deep recursion
    let work = std::thread::Builder::new().stack_size(1 << 30).spawn(|| {
        let args: Vec<String> = std::env::args().skip(1).collect();
        let args: Vec<&str> = args.iter().map(String::as_str).collect();
        run(&args).unwrap_or_else(|message| {
            eprintln!("{message}");
            2
        })
    });
    let status = work.expect("a thread").join().unwrap_or(2);
    std::process::exit(status);
}
