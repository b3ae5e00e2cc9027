// The words of a line, taken from the front.

pub struct Words {
    words: Vec<u64>,
    at: usize,
}

impl Words {
    pub fn of(text: &str) -> Result<Self, String> {
        let words: Result<Vec<u64>, _> = text.split(' ').filter(|word| !word.is_empty()).map(str::parse).collect();
        Ok(Self { words: words.map_err(|_| "a word is no number")?, at: 0 })
    }

    pub fn next(&mut self) -> Result<u64, String> {
        let word = *self.words.get(self.at).ok_or("too few words")?;
        self.at += 1;
        Ok(word)
    }

    pub fn take<const N: usize>(&mut self) -> Result<[u64; N], String> {
        let mut words = [0; N];
        for word in &mut words {
            *word = self.next()?;
        }
        Ok(words)
    }

    pub fn flag(&mut self) -> Result<bool, String> {
        Ok(self.next()? != 0)
    }

    /// A flag and a price.
    pub fn maybe(&mut self) -> Result<Option<u64>, String> {
        let [present, price] = self.take()?;
        Ok((present != 0).then_some(price))
    }

    pub fn rest(self) -> Vec<u64> {
        self.words[self.at..].to_vec()
    }

    pub fn end(&self) -> Result<(), String> {
        if self.at == self.words.len() { Ok(()) } else { Err("too many words".to_string()) }
    }
}
