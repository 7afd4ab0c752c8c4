//! Sends batches of cases to the bench and compares every byte that comes back.

use crate::agreement::Agreement;
use crate::answer::After;
use crate::call::Case;
use crate::cases::{every, random::Random, round, written};
use crate::in_turn::InTurn;
use crate::server::{guarded, Server};
use crate::tally::Tally;

/// Rounds in a batch: enough that the pipe costs little, few enough that a failure is near.
const ROUNDS: u64 = 64;

/// Cases in a batch of those that are not random.
const CASES: usize = 4096;

/// Why a comparison stopped.
pub struct Stop(pub String);

impl From<std::io::Error> for Stop {
    fn from(error: std::io::Error) -> Stop {
        Stop(format!("rust: the server failed: {error}"))
    }
}

pub struct Bench {
    server: Server,
    seed: u64,
    rounds: u64,
    pub compared: u64,
    /// How many shared runs were held against one hall for each setting.
    agreed: u64,
    /// How many calls of one hall were held against configuring and the plain run in turn.
    in_turn: u64,
    tally: Tally,
}

impl Bench {
    pub fn new(server: Server, seed: u64) -> Bench {
        Bench {
            server,
            seed,
            rounds: 0,
            compared: 0,
            agreed: 0,
            in_turn: 0,
            tally: Tally::default(),
        }
    }

    /// What is tried in any case, whatever the seed gives.
    pub fn every(&mut self) -> Result<(), Stop> {
        let mut cases = every::cases(self.seed).peekable();
        while cases.peek().is_some() {
            let batch: Vec<Case> = cases.by_ref().take(CASES).collect();
            self.ask(&batch)?;
        }
        let mut agreements = every::agreements().peekable();
        while agreements.peek().is_some() {
            let batch: Vec<Agreement> = agreements.by_ref().take(CASES / 16).collect();
            self.agree(&batch)?;
        }
        Ok(())
    }

    /// The same of reading and listing.
    pub fn every_written(&mut self) -> Result<(), Stop> {
        let mut cases = written::every(self.seed).peekable();
        while cases.peek().is_some() {
            let batch: Vec<Case> = cases.by_ref().take(CASES / 4).collect();
            self.ask(&batch)?;
        }
        Ok(())
    }

    pub fn written_batch(&mut self) -> Result<(), Stop> {
        let rounds = self.rounds..self.rounds + ROUNDS;
        let of = |number| written::round(&mut Random::new(self.seed, number));
        let cases: Vec<Case> = rounds.flat_map(of).collect();
        self.rounds += ROUNDS;
        self.ask(&cases).map(|_| ())
    }

    /// Each round has random numbers of its own, so a round does not depend on the rounds before it.
    pub fn batch(&mut self) -> Result<(), Stop> {
        let mut cases = Vec::new();
        let mut agreements = Vec::new();
        for number in self.rounds..self.rounds + ROUNDS {
            let mut random = Random::new(self.seed, number);
            let round = round(&mut random);
            cases.extend(round.cases);
            agreements.extend(
                round
                    .subject
                    .map(|subject| Agreement::new(&mut random, &subject)),
            );
        }
        self.rounds += ROUNDS;
        self.ask(&cases)?;
        self.agree(&agreements)
    }

    fn agree(&mut self, agreements: &[Agreement]) -> Result<(), Stop> {
        let asked: Vec<Vec<Case>> = agreements.iter().map(Agreement::cases).collect();
        let mut replies = self.ask(&asked.concat())?.into_iter();
        for (agreement, cases) in agreements.iter().zip(&asked) {
            let told: Vec<After> = replies.by_ref().take(cases.len()).collect();
            agreement
                .agrees(&told)
                .map_err(|why| self.stop(&cases[0], &why))?;
            self.agreed += 1;
        }
        Ok(())
    }

    /// Compares the replies with what the documents say, each answer of one hall with the two calls in turn, and gives the replies.
    fn ask(&mut self, cases: &[Case]) -> Result<Vec<After>, Stop> {
        let replies = self.compare(cases)?;
        self.in_turn(cases, &replies)?;
        Ok(replies)
    }

    fn in_turn(&mut self, cases: &[Case], replies: &[After]) -> Result<(), Stop> {
        let answered = cases.iter().zip(replies);
        let halls: Vec<(&Case, InTurn)> = answered
            .filter_map(|(case, reply)| Some((case, InTurn::of(case, reply)?)))
            .collect();
        let first: Vec<Case> = halls.iter().map(|(_, hall)| hall.configuring()).collect();
        let configured = self.compare(&first)?;
        let second: Vec<Vec<Case>> = halls
            .iter()
            .zip(&configured)
            .map(|((_, hall), configured)| hall.then(configured))
            .collect();
        let mut replies = self.compare(&second.concat())?.into_iter();
        for (((case, hall), configured), second) in halls.iter().zip(&configured).zip(&second) {
            let then: Vec<After> = replies.by_ref().take(second.len()).collect();
            hall.agrees(configured, &then)
                .map_err(|why| self.stop(case, &why))?;
            self.in_turn += 1;
        }
        Ok(())
    }

    fn compare(&mut self, cases: &[Case]) -> Result<Vec<After>, Stop> {
        self.server.send(cases)?;
        let expected: Vec<After> = cases.iter().map(Case::expected).collect();
        let replies = self.server.receive(cases).map_err(|error| {
            Stop(format!(
                "rust: the server failed ({error}) in cases {} to {}, seed {}",
                self.compared + 1,
                self.compared + cases.len() as u64,
                self.seed
            ))
        })?;
        for ((case, expected), reply) in cases.iter().zip(&expected).zip(&replies) {
            self.compared += 1;
            if expected.returned != reply.returned {
                return Err(self.stop(case, &format!("it returned {}", reply.returned)));
            }
            let slices = expected.slices.iter().zip(&reply.slices);
            for (slice, (expected, reply)) in slices.enumerate() {
                let expected = guarded(expected, case.guard);
                if expected != *reply {
                    return Err(self.stop(
                        case,
                        &format!(
                            "slice {slice} with its guards\n  expected {}\n  came     {}",
                            hex(&expected),
                            hex(reply)
                        ),
                    ));
                }
            }
            self.tally.add(case, expected);
        }
        Ok(replies)
    }

    fn stop(&self, case: &Case, why: &str) -> Stop {
        let slices: Vec<String> = case.slices.iter().map(|slice| hex(slice)).collect();
        Stop(format!(
            "rust: different, seed {}, case {}: {:x?}\n  lent {}\n{why}",
            self.seed,
            self.compared,
            case.call,
            slices.join("\n  lent ")
        ))
    }

    pub fn end(self) -> Result<String, Stop> {
        if !self.server.stop()? {
            return Err(Stop("rust: the server ended badly".into()));
        }
        Ok(format!(
            "{}\nshared runs held against one hall: {}\none hall held against the two calls in turn: {}\nrust: ok, {} cases, seed {}",
            self.tally, self.agreed, self.in_turn, self.compared, self.seed
        ))
    }
}

fn hex(bytes: &[u8]) -> String {
    bytes.iter().map(|byte| format!("{byte:02x}")).collect()
}
