//! How a call and its answer are laid out: a record of 816 bytes. What a call has none of is 0, and so is what lies past the
//! end of a list.
use super::bytes::Bytes;
use crate::entries::Settings;

pub const SIZE: usize = 816;

/// How many records the recording of the solvers has.
pub const RECORDS: usize = 1_169;

/// Room for nodes, for links, and for sources or targets.
pub const NODES: usize = 12;
pub const LINKS: usize = 24;
pub const MANY: usize = 8;

/// Room for vectors, and for buffers of workspace.
pub const VECTORS: usize = 4;
pub const WORKSPACE: usize = 12;

#[derive(Clone)]
pub struct Record {
    /// The call's number: `called` has them.
    pub call: u32,
    pub refusal: u32,
    pub pushes: u32,
    pub visited: u32,
    pub nodes: u32,
    pub source: u32,
    pub target: u32,
    /// How much is lent of the graph's three lists, and of that of sources or targets.
    pub read: [usize; 4],
    /// How much is lent of the vectors, in the order of the parameters, and then of the workspace.
    pub lent: [usize; VECTORS + WORKSPACE],
    /// A call of one way takes the first alone; one of both ways has the forward ones first.
    pub settings: [Settings; 2],
    pub precision: f64,
    /// The norm of a solve, the score of a query.
    pub number: f64,
    pub many: [u32; MANY],
    pub first: [u32; LINKS],
    pub second: [u32; LINKS],
    pub weights: [f64; LINKS],
    /// Those of the answer, in the order of the parameters. Of a call that takes vectors alone, those that it is given come
    /// first.
    pub vectors: [[f64; NODES]; VECTORS],
}

impl Record {
    /// A record of a call, with nothing but its settings.
    pub fn new(call: u32, settings: [Settings; 2]) -> Self {
        Self {
            call,
            refusal: 0,
            pushes: 0,
            visited: 0,
            nodes: 0,
            source: 0,
            target: 0,
            read: [0; 4],
            lent: [0; VECTORS + WORKSPACE],
            settings,
            precision: 0.0,
            number: 0.0,
            many: [0; MANY],
            first: [0; LINKS],
            second: [0; LINKS],
            weights: [0.0; LINKS],
            vectors: [[0.0; NODES]; VECTORS],
        }
    }

    /// Goes over the words, in the order in which a record has them.
    fn pass(&mut self, bytes: &mut Bytes) {
        bytes.wholes([&mut self.call, &mut self.refusal, &mut self.pushes, &mut self.visited]);
        bytes.wholes([&mut self.nodes, &mut self.source, &mut self.target]);
        self.settings.iter_mut().for_each(|settings| bytes.wide(&mut settings.max_pushes));
        bytes.lengths(&mut self.read);
        bytes.lengths(&mut self.lent);
        self.settings.iter_mut().for_each(|settings| bytes.flag(&mut settings.adaptive_threshold));
        bytes.pad::<6>();
        for Settings { alpha, epsilon, queue_threshold, .. } in &mut self.settings {
            bytes.floats([alpha, epsilon, queue_threshold]);
        }
        bytes.floats([&mut self.precision, &mut self.number]);
        bytes.nodes(&mut self.many);
        bytes.nodes(&mut self.first);
        bytes.nodes(&mut self.second);
        bytes.floats(&mut self.weights);
        bytes.floats(self.vectors.iter_mut().flatten());
    }

    pub fn bytes(&self) -> Vec<u8> {
        let mut bytes = Bytes::Written(Vec::with_capacity(SIZE));
        self.clone().pass(&mut bytes);
        let Bytes::Written(bytes) = bytes else { unreachable!("it was written") };
        assert_eq!(bytes.len(), SIZE, "every record is as long");
        bytes
    }

    /// The records of a recording, which has to be whole, and as it is written.
    pub fn all(recording: &[u8]) -> Result<Vec<Self>, String> {
        if recording.len() != RECORDS * SIZE {
            return Err(format!("{} bytes, where {RECORDS} records of {SIZE} bytes are right", recording.len()));
        }
        let numbered = recording.chunks(SIZE).zip(1..);
        numbered.map(|(bytes, number)| Self::of_bytes(bytes).ok_or(format!("record {number} is none"))).collect()
    }

    /// The record, where writing it gives these bytes again, and no list is longer than its room.
    fn of_bytes(bytes: &[u8]) -> Option<Self> {
        let mut record = Self::new(0, [Settings::DEFAULT; 2]);
        record.pass(&mut Bytes::Read(bytes));
        let rooms = [LINKS, LINKS, LINKS, MANY].into_iter().chain([NODES; VECTORS]);
        let fits = record.read.iter().chain(&record.lent).zip(rooms).all(|(length, room)| *length <= room);
        (fits && record.is_of_a_call() && record.bytes() == bytes).then_some(record)
    }
}
