//! Leads the proved store and the second program through the same random runs, and compares after every call the answer and
//! every byte of card and tray. Cards of 87 bytes and up to 16 MiB, of every block size, heights 0 to 3; nearly full ones;
//! 255 streams; scrambled and damaged cards. A difference ends it with words and status 1.

mod ours;

use second::generator::call::Call;
use second::generator::damage::damage;
use second::generator::dice::Dice;
use second::generator::runs::{random_call, Run, Taste, CROWD, MIXED, TALL};
use second::generator::scramble::scramble;
use second::shape::Shape;

/// One card in both hands, and the run that it is led through.
struct Trial {
    name: String,
    ours: Vec<u8>,
    seconds: Vec<u8>,
    run: Run,
    calls: u64,
    /// How often each number was answered.
    answers: [u64; 10],
}

impl Trial {
    /// Starts on a card newly formatted over noise, by both.
    fn new(s: u64, blocks: usize, seed: u64) -> Trial {
        let noise = Dice::new(seed).bytes(87 + (blocks << s));
        let shape = Shape::of(s, noise.len()).expect("a good shape");
        let mut trial = Trial {
            name: format!("s {s}, {blocks} blocks, seed {seed}"),
            ours: noise.clone(),
            seconds: noise,
            run: Run::new(shape, MIXED, seed),
            calls: 0,
            answers: [0; 10],
        };
        trial.call(&Call::Format { s });
        trial
    }

    /// Makes one call with both; they must agree in everything.
    fn call(&mut self, call: &Call) {
        let mut tray = self.run.dice.bytes(call.tray_length());
        let mut seconds_tray = tray.clone();
        let word = ours::run(call, &mut self.ours, &mut tray);
        let answer = call.run(&mut self.seconds, &mut seconds_tray);
        self.calls += 1;
        self.answers[usize::from(answer.number)] += 1;
        let same = word == answer.word() && tray == seconds_tray && self.ours == self.seconds;
        if !same {
            let name = &self.name;
            let seconds = answer.word();
            println!("{name}: call {} differs, {call:?}", self.calls);
            println!("the proved store answers {word:#x}, the second program {seconds:#x}");
            std::process::exit(1);
        }
    }

    /// So many calls that suit what the card holds.
    fn steps(&mut self, taste: Taste, steps: usize) {
        self.run.taste = taste;
        for _ in 0..steps {
            let step = self.run.next().expect("a run does not end");
            self.call(&step.call);
        }
    }

    /// A call of one's own choice, which the run learns of.
    fn step(&mut self, call: Call) {
        let step = self.run.step(call);
        self.call(&step.call);
    }

    /// Goes on with the same names and bytes as a stranger might have written them.
    fn scrambled(&mut self) {
        let card = scramble(&self.ours, &mut self.run.dice).expect("a sound card");
        let layout = second::generator::layout::Layout::read(&card).expect("a sound card");
        self.run.plain = layout.plain();
        self.ours.clone_from(&card);
        self.seconds = card;
    }

    /// Damages the card, makes some calls on it, and takes the whole card up again.
    fn damaged(&mut self, cards: usize, calls: usize) {
        let whole = self.ours.clone();
        for _ in 0..cards {
            let mut card = whole.clone();
            damage(&mut card, &mut self.run.dice);
            self.ours.clone_from(&card);
            self.seconds = card;
            for _ in 0..calls {
                let call = random_call(&mut self.run.dice, &self.run.plain, &self.run.taste);
                self.call(&call);
            }
        }
        self.ours.clone_from(&whole);
        self.seconds = whole;
    }

    fn told(self, all: &mut [u64; 10]) {
        println!("{}: {} calls", self.name, self.calls);
        for (sum, n) in all.iter_mut().zip(self.answers) {
            *sum += n;
        }
    }
}

fn main() {
    let mut all = [0; 10];
    for s in 6..=12 {
        for blocks in [1, 2, 5, 40, 300] {
            let mut trial = Trial::new(s, blocks, 100 * s + blocks as u64);
            trial.steps(MIXED.writing_up_to(3 << s), 120);
            trial.damaged(6, 4);
            trial.scrambled();
            trial.steps(TALL.writing_up_to(9 << s), 120);
            trial.told(&mut all);
        }
    }
    let mut crowd = Trial::new(6, 4096, 1);
    crowd.steps(CROWD, 900);
    crowd.damaged(40, 3);
    crowd.scrambled();
    crowd.steps(CROWD, 300);
    for k in 0..256 {
        crowd.step(Call::create(format!("name {k}").as_bytes()));
    }
    crowd.steps(CROWD, 300);
    crowd.told(&mut all);
    let mut tall = Trial::new(6, 4096, 2);
    tall.steps(TALL.writing_up_to(100_000), 300);
    tall.damaged(40, 3);
    tall.told(&mut all);
    for seed in 3..6 {
        let mut large = Trial::new(12, 4096, seed);
        large.steps(MIXED.writing_up_to(1 << 22), 150);
        large.scrambled();
        large.steps(TALL.writing_up_to(1 << 23), 60);
        large.damaged(10, 2);
        large.told(&mut all);
    }
    let calls: u64 = all.iter().sum();
    println!("{calls} calls agree; of the numbers 0 to 9 there were {all:?}");
    if all.contains(&0) {
        println!("a number was never answered: the runs are too tame");
        std::process::exit(1);
    }
}
