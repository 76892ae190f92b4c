use std::error::Error as _;
use std::io::{self, BufRead, BufReader};
use std::os::unix::fs::FileExt;
use std::process::{Command, Stdio};
use std::sync::{Mutex, PoisonError};
use std::time::Duration;
use vezhnake::{
    BadImage, Code, Error, FileStorage, Kind, Machine, NewMessage, Refusal, Storage, ALL,
};

/// Held by tests that open files or start programs: until a program runs, it shares the locks of all files that are open.
static FILES: Mutex<()> = Mutex::new(());

fn machine() -> Machine<Vec<u8>> {
    Machine::over(vezhnake::example_image(), 0).unwrap()
}

fn refusal<T: std::fmt::Debug>(result: vezhnake::Result<T>) -> Refusal {
    match result {
        Err(Error::Refused(refusal)) => refusal,
        other => panic!("{other:?}"),
    }
}

#[test]
fn a_save_is_found_again_by_a_store_that_evicts() {
    let mut image = vezhnake::example_image();
    for round in 1..=2 {
        let mut machine = Machine::over(&mut image, 0).unwrap();
        let reply = machine.call(1, 6, [2, 3, 98 + round]).unwrap();
        assert_eq!(
            (reply.kind, reply.code, reply.values),
            (Kind::Done, Some(Code::Success), vec![0, 0, 0])
        );
        assert_eq!(machine.save().unwrap(), round);
        machine.send(1, 6, [2, 3, 7]).unwrap();
        drop(machine);
        assert_eq!(
            Machine::over(&mut image, 8).unwrap().page(16).unwrap()[3],
            98 + round
        );
    }
}

#[test]
fn refusals_and_result_codes_are_errors() {
    let mut machine = machine();
    assert!(matches!(
        machine.call(1, 6, [1, 512]),
        Err(Error::Order(Code::BadIndex, _))
    ));
    assert!(matches!(
        machine.call(1, 7, [1]),
        Err(Error::Order(Code::VoidCapability, _))
    ));
    assert_eq!(refusal(machine.commit()), Refusal::NoCheckpoint);
    assert_eq!(refusal(machine.command("sohw 16")), Refusal::BadLine);
    assert!(matches!(machine.call(1, 32, [0]), Err(Error::BadCommand)));
    assert_eq!(refusal(machine.send(16, 6, [0])), Refusal::NoProcess);
    assert_eq!(refusal(machine.page(99999)), Refusal::BadNumber);
    assert_eq!(refusal(machine.load(1, 0)), Refusal::MemoryFault(1));
    assert!(matches!(refusal(machine.page(1)), Refusal::Other(_)));
    machine.call(1, 6, [2, 0, 1].sending([6])).unwrap();
    assert_eq!(machine.checkpoint().unwrap(), 3);
    assert_eq!(refusal(machine.commit()), Refusal::NotStable(3));
    assert_eq!(refusal(machine.save()), Refusal::CheckpointRunning);
    assert_eq!(
        (machine.stabilize(ALL).unwrap(), machine.commit().unwrap()),
        (0, 1)
    );
    assert_eq!(refusal(machine.checkpoint()), Refusal::MigrationPending);
    assert_eq!(
        (machine.save().unwrap(), machine.restart().unwrap()),
        (2, 2)
    );
    assert_eq!(machine.step("sohw 16").unwrap(), "bad line");
}

#[test]
fn an_image_may_be_the_start_of_a_longer_file() {
    let _held = FILES.lock().unwrap_or_else(PoisonError::into_inner);
    let path = std::env::temp_dir().join(format!("vezhnake-longer-{}", std::process::id()));
    let image = vezhnake::example_image();
    let mut longer = image.clone();
    longer.extend_from_slice(b"another");
    std::fs::write(&path, &longer).unwrap();
    let file = std::fs::OpenOptions::new().write(true).open(&path).unwrap();
    file.set_len(65 << 20).unwrap();
    assert_eq!(FileStorage::open(&path).unwrap().read().unwrap(), image);
    let mut machine = Machine::open(&path).unwrap();
    machine.call(1, 6, [2, 3, 99]).unwrap();
    machine.save().unwrap();
    drop(machine);
    assert_eq!(Machine::open(&path).unwrap().page(16).unwrap()[3], 99);
    let left = std::fs::read(&path).unwrap();
    assert!(left.len() == 65 << 20 && left[image.len()..].starts_with(b"another\0"));
    for (total, sectors) in [(u64::MAX, 131_072), (131_073, 131_072), (6, 6), (0, 5)] {
        file.write_all_at(&total.to_le_bytes(), 56).unwrap();
        let read = FileStorage::open(&path).unwrap().read().unwrap();
        assert_eq!(read.len(), sectors * 512);
    }
    for length in [0, 1, 512, 2559, 2560, image.len() - 1] {
        std::fs::write(&path, &image[..length]).unwrap();
        assert!(matches!(
            Machine::open(&path),
            Err(Error::BadImage(BadImage::Small))
        ));
    }
    std::fs::remove_file(&path).unwrap();
}

#[test]
fn images_and_arguments_are_refused() {
    let open = |image: Vec<u8>, cache| Machine::over(image, cache).map(drop);
    assert!(matches!(
        open(vec![0; 512], 0),
        Err(Error::BadImage(BadImage::NotASuperblock | BadImage::Small))
    ));
    assert!(matches!(open(vec![0; 511], 0), Err(Error::BadSize)));
    assert!(matches!(
        open(vezhnake::example_image(), 7),
        Err(Error::BadCache)
    ));
    let error = Machine::open("/nonexistent").unwrap_err();
    assert!(error
        .source()
        .unwrap()
        .to_string()
        .starts_with("/nonexistent: "));
}

/// An image in memory whose writes fail after some.
struct Failing(Vec<u8>, u32);

impl Storage for Failing {
    fn read(&mut self) -> io::Result<Vec<u8>> {
        Ok(self.0.clone())
    }

    fn write(&mut self, byte: u64, data: &[u8]) -> io::Result<()> {
        if self.1 == 0 {
            return Err(io::Error::other("the disk is full"));
        }
        self.1 -= 1;
        self.0.write(byte, data)
    }

    fn sync(&mut self) -> io::Result<()> {
        Ok(())
    }
}

#[test]
fn storage_that_fails_closes_the_machine() {
    let (mut left, mut counts) = (0, vec![]);
    loop {
        let mut storage = Failing(vezhnake::example_image(), left);
        let mut machine = Machine::over(&mut storage, 0).unwrap();
        machine.call(1, 6, [2, 0, 5]).unwrap();
        let saved = machine.save();
        if saved.is_ok() {
            break;
        }
        assert_eq!(
            saved.unwrap_err().source().unwrap().to_string(),
            "the disk is full"
        );
        assert!(!machine.is_open() && matches!(machine.page(16), Err(Error::Closed)));
        drop(machine);
        counts.push(Machine::over(&mut storage.0, 0).unwrap().page(16).unwrap()[0]);
        left += 1;
    }
    assert!(
        counts.contains(&0) && counts.contains(&5) && counts.iter().all(|it| [0, 5].contains(it)),
        "{counts:?}"
    );
}

#[test]
fn machines_move_between_threads() {
    let mut machine = machine();
    let machine = std::thread::spawn(move || machine.save().map(|_| machine))
        .join()
        .unwrap();
    assert_eq!(machine.unwrap().save().unwrap(), 2);
}

#[test]
fn long_answers_and_texts_fit() {
    let mut machine = machine();
    for word in 0..512 {
        machine.send(1, 6, [2, word, u64::MAX - word]).unwrap();
    }
    let answers = machine.run("show 16\n".repeat(100).as_bytes()).unwrap();
    assert_eq!(answers.iter().filter(|it| **it == b'\n').count(), 51400);
    assert_eq!(machine.page(16).unwrap()[511], u64::MAX - 511);
}

#[test]
fn kills_lose_no_count() {
    let _held = FILES.lock().unwrap_or_else(PoisonError::into_inner);
    let folder = std::env::temp_dir().join(format!("vezhnake-{}", std::process::id()));
    std::fs::create_dir_all(&folder).unwrap();
    let path = folder.join("counter.image");
    std::fs::write(&path, vezhnake::example_image()).unwrap();
    // Cargo builds the examples beside the tests.
    let counter = std::env::current_exe()
        .unwrap()
        .parent()
        .unwrap()
        .parent()
        .unwrap()
        .join("examples/counter");
    let (mut last, mut seed) = (0u64, 88172645463325252u64);
    for _ in 0..30 {
        let mut child = Command::new(&counter)
            .arg(&path)
            .arg("100000000")
            .stdout(Stdio::piped())
            .spawn()
            .unwrap();
        let mut lines = BufReader::new(child.stdout.take().unwrap()).lines();
        let mut printed = vec![lines.next().unwrap().unwrap()];
        let held = FileStorage::open(&path).unwrap_err();
        assert!(
            held.kind() == io::ErrorKind::WouldBlock
                && held.to_string().ends_with("another program uses the image")
        );
        seed ^= seed << 13;
        seed ^= seed >> 7;
        seed ^= seed << 17;
        std::thread::sleep(Duration::from_micros(seed % 40_000));
        child.kill().unwrap();
        printed.extend(lines.map_while(std::result::Result::ok));
        child.wait().unwrap();
        // The last line may be cut short.
        let count = Machine::open(&path).unwrap().page(16).unwrap()[0];
        let whole: Vec<u64> = printed[..printed.len().max(2) - 1]
            .iter()
            .map(|it| it.parse().unwrap())
            .collect();
        let first = whole[0];
        assert!(
            first == last + 1 && whole.iter().zip(first..).all(|(one, other)| *one == other),
            "{whole:?} after {last}"
        );
        assert!(
            count >= *whole.last().unwrap() && count <= whole.last().unwrap() + 2,
            "{count} after {whole:?}"
        );
        last = count;
    }
    std::fs::remove_dir_all(&folder).unwrap();
    assert!(last >= 30);
}
