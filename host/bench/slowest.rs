//! The slowest notes and sheets so far.

/// How a note or a sheet is made, and its times, in nanoseconds a byte.
pub struct Slow {
    pub name: String,
    pub reader: f64,
    pub page_writer: f64,
}

impl Slow {
    fn worse(&self) -> f64 {
        self.reader.max(self.page_writer)
    }
}

/// The ten slowest, the slowest first.
#[derive(Default)]
pub struct Slowest {
    list: Vec<Slow>,
}

impl Slowest {
    const COUNT: usize = 10;

    pub fn note(&mut self, slow: Slow) {
        let place = self
            .list
            .partition_point(|other| other.worse() >= slow.worse());
        self.list.insert(place, slow);
        self.list.truncate(Self::COUNT);
    }

    pub fn worst(&self) -> f64 {
        self.list.first().map_or(0.0, Slow::worse)
    }

    pub fn print(&self) {
        println!("| note or sheet | reader | page writer |");
        println!("|---|--:|--:|");
        for slow in &self.list {
            println!(
                "| {} | {:.1} | {:.1} |",
                slow.name, slow.reader, slow.page_writer
            );
        }
    }
}
