//! Whole sessions, their parts and their recordings, subject by subject.

use criterion::{criterion_group, criterion_main, BenchmarkId, Criterion, Throughput};
use indraveck_evidence::session::{machine, Delivery, Memory, Session, DELIVERIES};
#[cfg(feature = "proved")]
use indraveck_evidence::Proved;
use indraveck_evidence::{Model, Subject};
use std::time::Duration;

fn subjects() -> Vec<(&'static str, Box<dyn Subject>)> {
    vec![
        #[cfg(feature = "proved")]
        ("proved", Box::new(Proved)),
        ("model", Box::new(Model(None))),
    ]
}

fn sessions(c: &mut Criterion) {
    println!("{}", machine());
    for (name, size, wau) in [("64 KB", 0x1_0000, 128), ("4 MB", 0x40_0000, 1024)] {
        let session = Session::new(size, wau);
        let mut group = c.benchmark_group(format!("session of {}", name));
        group.throughput(Throughput::Bytes(size.into()));
        for delivery in DELIVERIES {
            if delivery == Delivery::Bytes && size > 0x1_0000 {
                // millions of calls: the table of ratios has it once
                continue;
            }
            for (subject_name, subject) in subjects() {
                let mut memory = session.memory(&*subject);
                let id = BenchmarkId::new(subject_name, delivery.name());
                group.bench_function(id, |b| {
                    b.iter(|| {
                        session.restart(&*subject, &mut memory);
                        session.run(&*subject, &mut memory, &session.whole, delivery)
                    })
                });
            }
        }
        let mut memory = session.memory(&Model(None));
        group.bench_function("plain fill and copies", |b| {
            b.iter(|| session.move_plainly(&mut memory))
        });
        group.finish();
    }
}

type Prepare = fn(&Session, &mut Memory);

fn parts(c: &mut Criterion) {
    let session = Session::new(0x40_0000, 1024);
    let scripts: [(&str, &_, Prepare); 4] = [
        ("erase of 4 MB", &session.erase, |_, _| {}),
        ("write of 4 MB", &session.write, Session::fill_plainly),
        ("read of 4 MB", &session.read, |_, _| {}),
        ("blank checks of 4 MB", &session.refused, Session::spoil),
    ];
    for (name, script, prepare) in scripts {
        let mut group = c.benchmark_group(name);
        group.throughput(Throughput::Bytes(session.size() as u64));
        for (subject_name, subject) in subjects() {
            let mut memory = session.memory(&*subject);
            group.bench_function(subject_name, |b| {
                b.iter_custom(|rounds| {
                    let mut spent = Duration::ZERO;
                    for _ in 0..rounds {
                        prepare(&session, &mut memory);
                        session.wake_up(&*subject, &mut memory);
                        let start = std::time::Instant::now();
                        session.run(&*subject, &mut memory, script, Delivery::Packets);
                        spent += start.elapsed();
                    }
                    spent
                })
            });
        }
        group.finish();
    }
    let mut group = c.benchmark_group("plain limits of 4 MB");
    let mut memory = session.memory(&Model(None));
    group.bench_function("fill", |b| b.iter(|| session.fill_plainly(&mut memory)));
    group.bench_function("copy in", |b| {
        b.iter(|| session.copy_in_plainly(&mut memory))
    });
    group.bench_function("copy out", |b| {
        b.iter(|| session.copy_out_plainly(&mut memory))
    });
    // a target that differs early would be no limit of a whole one
    session.spoil(&mut memory);
    group.bench_function("compare", |b| b.iter(|| session.compare_plainly(&memory)));
    group.finish();
}

fn recordings(c: &mut Criterion) {
    let session = Session::new(0x40_0000, 1024);
    let mut memory = session.memory(&Model(None));
    let mut group = c.benchmark_group("recording of a session of 4 MB");
    for (subject_name, subject) in subjects() {
        group.bench_function(BenchmarkId::new(subject_name, "read"), |b| {
            b.iter(|| session.read_tape(&*subject))
        });
        group.bench_function(BenchmarkId::new(subject_name, "written"), |b| {
            b.iter(|| session.write_tape(&*subject, &mut memory))
        });
    }
    group.bench_function("plain walk", |b| b.iter(|| session.walk_plainly()));
    group.bench_function("plain copy", |b| {
        b.iter(|| session.copy_tape_plainly(&mut memory))
    });
    group.finish();
}

criterion_group! {
    name = benches;
    config = Criterion::default()
        .sample_size(10)
        .warm_up_time(Duration::from_millis(100))
        .measurement_time(Duration::from_millis(500))
        // the default of 100,000 takes minutes for each row under an emulator
        .nresamples(1_001)
        .without_plots();
    targets = sessions, parts, recordings
}
criterion_main!(benches);
