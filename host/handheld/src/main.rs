//! The sample host in Rust, `handheld FILE`: runs a procedure from a file 100 steps at a time, with the memory in its own process.

#[cfg(feature = "proved")]
mod host {
    extern "C" {
        fn panelrue_start(file: *const u8, len: usize, memory: *mut u32, words: usize) -> u64;
        fn panelrue_run(
            file: *const u8,
            len: usize,
            memory: *mut u32,
            words: usize,
            allowance: u64,
            answer: *mut u64,
            room: usize,
        ) -> u64;
    }

    /// The line of a refusal.
    fn refused(number: u64) -> String {
        format!("refused {} place {} item {}", number & 255, number >> 16, number >> 8 & 255)
    }

    /// Starts the procedure and runs it in turns of 100 steps, until it ends or has no room; the memory could be stored between two turns.
    pub fn run(file: &[u8]) -> String {
        let mut memory = vec![0u32; 16_384];
        let mut answer = [0u64; 3];
        // Pointers and lengths are those of slices that live through the call, and memory is lent to it alone.
        let number =
            unsafe { panelrue_start(file.as_ptr(), file.len(), memory.as_mut_ptr(), memory.len()) };
        if number != 0 {
            return refused(number);
        }
        let (mut steps, mut turns) = (0, 0);
        loop {
            // The same holds here, and of the answer.
            let number = unsafe {
                panelrue_run(
                    file.as_ptr(),
                    file.len(),
                    memory.as_mut_ptr(),
                    memory.len(),
                    100,
                    answer.as_mut_ptr(),
                    answer.len(),
                )
            };
            if number != 0 {
                return refused(number);
            }
            steps += answer[2];
            turns += 1;
            let end = match answer[0] {
                0 => format!("value {}", answer[1] as u32 as i32),
                1 => "arith".to_string(),
                2 => "abort".to_string(),
                3 if turns < 100 => continue,
                3 => "Spent".to_string(),
                _ => "Full".to_string(),
            };
            return format!("{end} steps {steps} turns {turns}");
        }
    }
}

/// Prints how the procedure in the named file ended.
#[cfg(feature = "proved")]
fn main() {
    let name = std::env::args().nth(1).unwrap_or_default();
    match std::fs::read(&name) {
        Ok(file) => println!("{}", host::run(&file)),
        Err(reason) => {
            eprintln!("{name}: {reason}");
            std::process::exit(2);
        }
    }
}

/// Says that the library was not linked.
#[cfg(not(feature = "proved"))]
fn main() {
    eprintln!("built without the feature `proved`");
    std::process::exit(2);
}
