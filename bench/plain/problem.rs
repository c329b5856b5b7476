//! A problem: products that cost something, products that may not be true, and constraints.

/// Variable v is the literal 2v, and its complement 2v + 1.
pub type Literal = u32;

/// Up to three literals in ascending order. Of fewer the last stands again.
pub type Product = [Literal; 3];

/// The most literals and the most pairs of inequalities that are replaced.
const MOST_LITERALS: usize = 1024;
const MOST_PAIRS: usize = 1 << 21;

/// A sum of literals that is at least a bound, or exactly it.
#[derive(Default)]
pub struct Constraint {
    pub literals: Vec<Literal>,
    pub coefficients: Vec<i128>,
    pub bound: i128,
    pub exact: bool,
}

#[derive(Default)]
pub struct Problem {
    pub variables: usize,
    pub constant: i128,
    pub soft: Vec<(Product, i128)>,
    pub hard: Vec<Product>,
    pub constraints: Vec<Constraint>,
}

/// The product of some literals, unless it is never true.
pub fn product(literals: &mut [Literal]) -> Option<Product> {
    literals.sort_unstable();
    if literals.windows(2).any(|two| two[0] ^ 1 == two[1]) {
        return None;
    }
    let mut product = [literals[literals.len() - 1]; 3];
    let mut count = 0;
    for &literal in &*literals {
        if count == 0 || literal != product[count - 1] {
            product[count] = literal;
            count += 1;
        }
    }
    Some(product)
}

/// How many literals a product has.
pub fn degree(product: &Product) -> usize {
    1 + usize::from(product[0] != product[1]) + usize::from(product[1] != product[2])
}

impl Constraint {
    pub fn terms(&self) -> impl Iterator<Item = (Literal, i128)> + '_ {
        self.literals.iter().copied().zip(self.coefficients.iter().copied())
    }

    /// How far the greatest sum is above the bound.
    fn room(&self) -> i128 {
        let most: i128 = self.coefficients.iter().filter(|&&c| c > 0).sum();
        most - self.bound
    }

    /// The weights of its slack bits.
    pub fn slack(&self) -> impl Iterator<Item = i128> + use<> {
        let room = if self.exact { 0 } else { self.room().max(0) };
        let count = i128::BITS - room.leading_zeros();
        (0..count).map(move |bit| if bit + 1 < count { 1 << bit } else { room - (1 << bit) + 1 })
    }

    /// If no two terms may miss: the literals that have to be false, and those of which one at most
    /// may be true.
    fn conflict(&self) -> Option<(Vec<Literal>, Vec<Literal>)> {
        let room = self.room();
        let count = self.literals.len();
        if self.exact || room < 0 || count == 0 || count > MOST_LITERALS {
            return None;
        }
        let mut least = room + 1;
        for coefficient in &self.coefficients {
            let size = coefficient.abs();
            if least + size <= room {
                return None;
            }
            least = least.min(size);
        }
        let (alone, paired): (Vec<_>, Vec<_>) =
            self.terms().partition(|(_, coefficient)| coefficient.abs() > room);
        let missed = |(literal, coefficient)| literal ^ u32::from(coefficient > 0);
        let all_missed = |terms: Vec<_>| terms.into_iter().map(missed).collect();
        Some((all_missed(alone), all_missed(paired)))
    }
}

impl Problem {
    /// Adds a product with a weight.
    pub fn add_soft(&mut self, weight: i128, literals: &mut [Literal]) {
        if weight != 0 {
            self.soft.extend(product(literals).map(|product| (product, weight)));
        }
    }

    /// Replaces conflicts by hard products of one or two literals, while there is room for pairs.
    pub fn replace_conflicts(&mut self) {
        let Problem { hard, constraints, .. } = self;
        let mut left = MOST_PAIRS;
        constraints.retain(|constraint| {
            let Some((alone, paired)) = constraint.conflict() else { return true };
            let pairs = paired.len() * paired.len().saturating_sub(1) / 2;
            if pairs > left {
                return true;
            }
            left -= pairs;
            hard.extend(alone.iter().map(|&literal| [literal; 3]));
            for (i, &first) in paired.iter().enumerate() {
                let seconds = paired[i + 1..].iter();
                hard.extend(seconds.filter_map(|&second| product(&mut [first, second])));
            }
            false
        });
    }

    /// How far two finite costs lie apart at most.
    pub fn spread(&self) -> i128 {
        self.soft.iter().map(|(_, weight)| weight.abs()).sum()
    }

    /// No finite cost is greater.
    pub fn greatest_cost(&self) -> i128 {
        self.constant + self.soft.iter().map(|&(_, weight)| weight.max(0)).sum::<i128>()
    }

    /// The pairs of literals that its terms may have.
    pub fn pairs(&self) -> usize {
        let products = self.soft.iter().map(|(product, _)| product).chain(&self.hard);
        let sums = (self.constraints.iter())
            .map(|constraint| constraint.literals.len() + constraint.slack().count() + 1);
        products.map(degree).chain(sums).map(|count| count * count).sum()
    }
}
