//! How a case stands in the fixed list: the number of its call, then its fields, each with its length in two bytes before it.

/// So many values of states has the program `replay` room for.
pub const STATES_ROOM: usize = 2048;

/// The calls by their numbers in the list.
#[derive(Clone, Copy, PartialEq, Eq, Debug)]
pub enum Call {
    FromPentachorons = 1,
    TriEdgeIndices,
    SpanningTree,
    FundamentalLoops,
    Su2FundamentalLoops,
    CheckGaussLaw,
    EnumerateGaugeInvariant,
    CountStates,
    ConfigToIndex,
    ApplyShift,
    ApplyTriangleShift,
    BuildHamiltonian,
    BuildCsr,
    CountEntries,
    HamiltonianMatvec,
    ElectricFieldSq,
    WilsonLoop,
    Su2Basis,
    Su2CountStates,
    BuildSu2Hamiltonian,
    BuildCsrSu2,
    Su2CountEntries,
    Su2HamiltonianMatvec,
    Su2WilsonLoop,
    Matvec,
    Su2WilsonPasses,
}

impl Call {
    pub const ALL: [Call; 26] = [
        Call::FromPentachorons,
        Call::TriEdgeIndices,
        Call::SpanningTree,
        Call::FundamentalLoops,
        Call::Su2FundamentalLoops,
        Call::CheckGaussLaw,
        Call::EnumerateGaugeInvariant,
        Call::CountStates,
        Call::ConfigToIndex,
        Call::ApplyShift,
        Call::ApplyTriangleShift,
        Call::BuildHamiltonian,
        Call::BuildCsr,
        Call::CountEntries,
        Call::HamiltonianMatvec,
        Call::ElectricFieldSq,
        Call::WilsonLoop,
        Call::Su2Basis,
        Call::Su2CountStates,
        Call::BuildSu2Hamiltonian,
        Call::BuildCsrSu2,
        Call::Su2CountEntries,
        Call::Su2HamiltonianMatvec,
        Call::Su2WilsonLoop,
        Call::Matvec,
        Call::Su2WilsonPasses,
    ];

    pub fn of(number: u8) -> Option<Call> {
        Call::ALL.into_iter().find(|&call| call as u8 == number)
    }

    /// What the call answers: the last fields, but for the two that `matvec` takes.
    pub fn answers(self, field: Field) -> bool {
        let taken = self == Call::Matvec && matches!(field, Field::First | Field::Second);
        field as usize >= Field::Told as usize && !taken
    }
}

/// The fields of a case in their order. The first ten are what the call takes, the others what it answers.
#[derive(Clone, Copy, PartialEq, Eq, Debug)]
pub enum Field {
    Sheet,
    Numbers,
    Configuration,
    Delta,
    Path,
    Directions,
    Pentachora,
    Coupling,
    Weights,
    Vector,
    Told,
    First,
    Second,
    Third,
    Floats,
}

impl Field {
    pub const ALL: [Field; 15] = [
        Field::Sheet,
        Field::Numbers,
        Field::Configuration,
        Field::Delta,
        Field::Path,
        Field::Directions,
        Field::Pentachora,
        Field::Coupling,
        Field::Weights,
        Field::Vector,
        Field::Told,
        Field::First,
        Field::Second,
        Field::Third,
        Field::Floats,
    ];

    /// The most bytes that the program `replay` has room for.
    pub fn most(self, call: Call) -> usize {
        match (self, call) {
            (Field::Sheet, _) => 905,
            (Field::Numbers, _) => 2 * 8,
            (Field::Configuration, _) => 63 * 4,
            (Field::Delta, _) => 4,
            (Field::Path | Field::Directions, _) => 64,
            (Field::Pentachora, _) => 5 * 51 * 8,
            (Field::Coupling, _) => 3 * 8,
            (Field::Weights, Call::Matvec) => 1024 * 8,
            (Field::Weights | Field::Vector, _) => 256 * 8,
            (Field::Told, _) => 8,
            (Field::First, Call::FromPentachorons) => 126,
            (Field::First, Call::TriEdgeIndices) => 3 * 8,
            (Field::First, Call::FundamentalLoops | Call::Su2FundamentalLoops) => 1024,
            (Field::First, Call::SpanningTree) => 64 * 4,
            (Field::First, Call::Matvec) => 257 * 4,
            // states of U(1), else masks
            (Field::First, call) if (call as u8) < Call::Su2Basis as u8 => STATES_ROOM * 4,
            (Field::First, _) => 256 * 8,
            (Field::Second, Call::FromPentachorons) => 768,
            (Field::Second, Call::BuildCsr | Call::BuildCsrSu2) => 128 * 4,
            (Field::Second, Call::Matvec) => 1024 * 4,
            (Field::Second, Call::ApplyShift) => 63 * 4,
            (Field::Second, _) => 64 * 4,
            (Field::Third, Call::FromPentachorons) => 8,
            (Field::Third, Call::FundamentalLoops) => 1024,
            (Field::Third, _) => 1024 * 4,
            (Field::Floats, Call::BuildHamiltonian | Call::BuildSu2Hamiltonian | Call::BuildCsr | Call::BuildCsrSu2) => 1024 * 8,
            (Field::Floats, _) => 256 * 8,
        }
    }
}

/// What a field is a list of.
pub trait Number: Copy {
    const BYTES: usize;

    /// Low byte first.
    fn bytes(self) -> Vec<u8>;

    /// Back from as many bytes.
    fn of(bytes: &[u8]) -> Self;
}

macro_rules! numbers {
    ($($number:ty),*) => { $(
        impl Number for $number {
            const BYTES: usize = size_of::<$number>();

            fn bytes(self) -> Vec<u8> {
                self.to_le_bytes().to_vec()
            }

            fn of(bytes: &[u8]) -> $number {
                <$number>::from_le_bytes(bytes.try_into().expect("as many bytes as the number has"))
            }
        }
    )* };
}

numbers!(u8, i8, u32, i32, u64, i64, f64);

/// All fields of a case; those that its call has no use for are empty.
#[derive(Clone, Default, PartialEq)]
pub struct Fields {
    bytes: [Vec<u8>; Field::ALL.len()],
}

impl Fields {
    pub fn with<T: Number>(mut self, field: Field, list: &[T]) -> Fields {
        self.bytes[field as usize] = list.iter().flat_map(|number| number.bytes()).collect();
        self
    }

    pub fn bytes(&self, field: Field) -> &[u8] {
        &self.bytes[field as usize]
    }

    pub fn list<T: Number>(&self, field: Field) -> Result<Vec<T>, String> {
        let bytes = self.bytes(field);
        if !bytes.len().is_multiple_of(T::BYTES) {
            return Err(format!("{field:?} has {} bytes", bytes.len()));
        }
        Ok(bytes.chunks_exact(T::BYTES).map(T::of).collect())
    }

    /// As many numbers as are expected.
    pub fn array<T: Number, const N: usize>(&self, field: Field) -> Result<[T; N], String> {
        let list: Vec<T> = self.list(field)?;
        list.try_into().map_err(|list: Vec<T>| format!("{field:?} has {} entries", list.len()))
    }

    /// How many bytes they have in all.
    pub fn len(&self) -> usize {
        self.bytes.iter().map(Vec::len).sum()
    }

    /// Whether the program has room for each of them, and every float is a number.
    pub fn fit(&self, call: Call) -> Result<(), String> {
        if let Some(field) = Field::ALL.into_iter().find(|field| self.bytes(*field).len() > field.most(call)) {
            return Err(format!("{field:?} has {} bytes", self.bytes(field).len()));
        }
        for field in [Field::Coupling, Field::Weights, Field::Vector, Field::Floats] {
            if !self.list(field)?.into_iter().all(f64::is_finite) {
                return Err(format!("{field:?} has a float that is no number"));
            }
        }
        Ok(())
    }

    /// What the call takes alone.
    pub fn taken(&self, call: Call) -> Fields {
        let mut fields = self.clone();
        for field in Field::ALL.into_iter().filter(|&field| call.answers(field)) {
            fields.bytes[field as usize].clear();
        }
        fields
    }

    pub fn write(&self, out: &mut Vec<u8>) {
        for field in &self.bytes {
            out.extend((field.len() as u16).to_le_bytes());
            out.extend(field);
        }
    }

    /// The fields at the front of what is left of a list.
    pub fn read(rest: &mut &[u8]) -> Result<Fields, String> {
        let mut fields = Fields::default();
        for field in &mut fields.bytes {
            let length = take(rest, 2)?;
            *field = take(rest, usize::from(length[0]) + 256 * usize::from(length[1]))?.to_vec();
        }
        Ok(fields)
    }
}

/// So many bytes off the front.
pub fn take<'a>(rest: &mut &'a [u8], len: usize) -> Result<&'a [u8], String> {
    let (taken, left) = rest.split_at_checked(len).ok_or("the list ends inside a case")?;
    *rest = left;
    Ok(taken)
}
