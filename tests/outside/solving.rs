//! Gives the library's clause files of small sheets to SAT solvers. A solver is to find a file
//! satisfiable just when brute force finds a filling that clashes, and the assignment that it then
//! lists is to spell such a filling. What a solver prints in document 01's form is given to the
//! library, as it is and damaged; also for some large sheets, of which only one clash is known.

use crate::assignment;
use crate::examples;
use crate::met::Met;
use crate::planted;
use crate::question::{self, Question, REASONS};
use crate::random::Random;
use crate::refusal::Refusal;
use crate::replies::Replies;
use crate::reply::Asked;
use crate::report::{require, Hex};
use crate::shapes;
use crate::sheets;
use crate::small;
use crate::solver::{self, Answer, Reply, Solver};
use crate::tally::Tally;
use crate::texts;
use std::thread;

const GENERATED: usize = 4000;
/// How many copies of what a solver printed are damaged.
const DAMAGED_COPIES: usize = 3;
const LARGE: usize = 40;
/// How many sheets the solvers are asked about before their replies are looked at.
const AT_ONCE: usize = 500;
/// How many sheets must clash and how many be apart, and how many have each reason and each shape.
const LEAST_OF_EACH_ANSWER: usize = 600;
const LEAST_OF_EACH_REASON: usize = 100;
const LEAST_OF_EACH_SHAPE: usize = 20;

pub fn run(solvers: &[Solver]) {
    let sheets = small_sheets(&mut Random::new(1));
    let mut met = Met::new(shapes::OF_SMALL);
    let mut reasons = Tally::new("small sheets", &REASONS, 0..0);
    let mut replies = Replies::new("replies of solvers", [27].into_iter().chain(31..=39));
    for some in sheets.chunks(AT_ONCE) {
        let questions: Vec<Question> = some.iter().map(|sheet| Question::new(sheet)).collect();
        let replied = ask_all(solvers, &questions);
        for (solver, replied) in solvers.iter().zip(&replied) {
            for (question, reply) in questions.iter().zip(replied) {
                hold(question, solver, reply);
                hand_over(&mut replies, &question.asked, question.tried.clash(), reply);
            }
        }
        for question in &questions {
            met.count(&question.asked.accepted().sheet, question.tried.clash());
            reasons.count(Ok(question.tried.reason));
        }
        println!(
            "outside: sheets given to solvers: {} of {}",
            met.total(),
            sheets.len()
        );
    }
    reasons.finish_at(LEAST_OF_EACH_REASON);
    met.finish(LEAST_OF_EACH_ANSWER, LEAST_OF_EACH_SHAPE);
    ask_about_large_sheets(&mut replies, solvers);
    if solvers.iter().any(Solver::has_form) {
        replies.finish();
    }
    println!(
        "outside: brute force agrees with {} on {} small sheets: {} clash, {} apart",
        solver::names(solvers),
        met.total(),
        met.clash,
        met.apart
    );
}

/// Document 01's examples, then sheets made by chance.
fn small_sheets(random: &mut Random) -> Vec<Vec<u8>> {
    let examples = examples::sheets().into_iter().map(<[u8]>::to_vec);
    let made = (0..GENERATED).map(|_| sheets::encode(&small::sheet(random)));
    examples.chain(made).collect()
}

/// Each solver's replies to all questions; each solver has a thread.
fn ask_all(solvers: &[Solver], questions: &[Question]) -> Vec<Vec<Reply>> {
    thread::scope(|scope| {
        let start = |solver| scope.spawn(move || ask(solver, questions));
        let threads: Vec<_> = solvers.iter().map(start).collect();
        let ended = threads.into_iter().map(|thread| thread.join());
        ended
            .map(|replies| replies.expect("a thread that ends"))
            .collect()
    })
}

fn ask(solver: &Solver, questions: &[Question]) -> Vec<Reply> {
    let turns = questions.iter().enumerate();
    turns
        .map(|(turn, question)| solver.ask(turn, &question.clauses))
        .collect()
}

/// Fails if a reply does not fit what brute force found.
fn hold(question: &Question, solver: &Solver, reply: &Reply) {
    let compared = compare(question, reply);
    require(
        compared.is_ok(),
        &compared.err().unwrap_or_default(),
        &[
            ("sheet", &Hex(&question.asked.sheet)),
            ("solver", &solver.name),
            ("ended with", &reply.status),
            ("printed", &reply.printed),
            ("listed", &reply.listing),
        ],
    );
}

/// What is wrong with a reply.
fn compare(question: &Question, reply: &Reply) -> Result<(), String> {
    match (reply.answer()?, question.tried.clash()) {
        (Answer::Satisfiable(listed), true) => {
            assignment::judge(question.asked.accepted(), &listed)
        }
        (Answer::Unsatisfiable, false) => Ok(()),
        (Answer::Satisfiable(_), false) => {
            Err("the solver finds an assignment, but no filling clashes".to_string())
        }
        (Answer::Unsatisfiable, true) => {
            Err("the solver finds no assignment, but a filling clashes".to_string())
        }
    }
}

/// Gives a reply in document 01's form to the library: just that of a sheet that clashes is a
/// filling. Then damaged copies of it.
fn hand_over(replies: &mut Replies, asked: &Asked, clash: bool, reply: &Reply) {
    let printed = match &reply.form {
        Some(printed) => printed,
        None => return,
    };
    let refusal = asked.read(printed, asked.filling_bytes()).err();
    let due = if clash {
        None
    } else {
        Some(Refusal::UnknownLine)
    };
    require(
        refusal == due,
        "the reply as the solver printed it is not taken, or taken where nothing clashes",
        &[
            ("sheet", &Hex(&asked.sheet)),
            ("printed", &reply.printed),
            ("refusal", &format!("{refusal:?}")),
        ],
    );
    replies.compare(asked, printed);
    for _ in 0..DAMAGED_COPIES {
        let mut text = printed.clone();
        texts::damage(&mut replies.random, &mut text);
        replies.compare(asked, &text);
    }
    if let Ok(Answer::Satisfiable(listed)) = reply.answer() {
        let mut listing = [listed, vec![0]].concat();
        texts::damage_listing(&mut replies.random, asked.accepted(), &mut listing);
        let text = texts::set_out(&mut replies.random, &listing);
        replies.compare(asked, &text);
    }
}

/// Sheets of all sizes in which a filling was made to clash.
fn ask_about_large_sheets(replies: &mut Replies, solvers: &[Solver]) {
    for turn in 0..LARGE {
        let (sheet, _) = planted::clashing(&mut replies.random, sheets::valid);
        let asked = Asked::new(&sheets::encode(&sheet));
        let clauses = question::clauses(&asked.sheet);
        for solver in solvers.iter().filter(|solver| solver.has_form()) {
            let reply = solver.ask(turn, &clauses);
            hand_over(replies, &asked, true, &reply);
        }
    }
    println!("outside: large sheets given to solvers: {LARGE}");
}
