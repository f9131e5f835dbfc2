// What the page says of kinds of pieces, of keys and of values. The keys and values are those of UTS #35.

/** Each kind: its name, and what it is. */
export const KINDS = {
  language: ['language', 'The language, by its code: two or three letters, or five to eight. und is any language.'],
  script: ['script', 'The script that it is written in, by its code of four letters.'],
  region: ['region', 'The region whose customs are meant: two letters for a country, three digits for a part of the world.'],
  variant: ['variant', 'A variant of the language, as a dialect or a spelling: five to eight letters or digits, or four that begin with a digit.'],
  attribute: ['attribute', 'A setting without a value. None is in use today.'],
  key: ['key', 'The name of a setting.'],
  field: ['field', 'What is said of the transformation: a letter and a digit.'],
  value: ['value', 'What is chosen for the key before it.'],
  other: ['subtag', 'A subtag of an extension that has no meaning here.'],
  private: ['private', 'What the writer alone knows the meaning of.'],
  singleton: ['extension', 'One letter or digit that begins an extension: u for settings, t for transformed text, x for private use.'],
};

/** Each key of `u` and field of `t`. */
export const KEYS = {
  ca: 'Calendar: which one dates are shown in.', cf: 'Currency format: whether negative amounts stand in brackets.', co: 'Collation: how texts are sorted.',
  cu: 'Currency.', dx: 'Scripts in which words are not found by a dictionary.', em: 'Emoji: shown in colour, or as text.',
  fw: 'First day of the week.', hc: 'Hour cycle: whether hours go to 12 or to 24, and from 0 or 1.', ka: 'Sorting: how punctuation counts.',
  kb: 'Sorting: accents from the end of the text.', kc: 'Sorting: case apart from accents.', kf: 'Sorting: which case comes first.',
  kh: 'Sorting: Hiragana apart.', kk: 'Sorting: texts are normalized first.', kn: 'Sorting: digits by their number, so 2 before 10.', kr: 'Sorting: the order of scripts.',
  ks: 'Sorting: how strong a difference counts.', kv: 'Sorting: which signs count as punctuation.', lb: 'Line break: how strict it is.',
  lw: 'Line break: whether words may be broken.', ms: 'Measurement system.', mu: 'Unit of a measurement, as of temperature.', nu: 'Numbering system: which digits are shown.',
  rg: 'Region override: whose customs count in place of the region’s.', sd: 'Subdivision: the part of the region.', ss: 'Sentence break: whether abbreviations are known.',
  tz: 'Time zone.', va: 'Variant of the locale, as posix.',
  d0: 'What the text was transformed to.', h0: 'Whether two languages are mixed.', i0: 'Input method.', k0: 'Keyboard.', m0: 'By which rules the text was transformed.',
  s0: 'What the text was transformed from.', t0: 'Which machine translated it.', x0: 'Private use.',
};

/** Values of keys, where their names do not say it. */
export const VALUES = {
  'hc h11': 'Hours from 0 to 11.', 'hc h12': 'Hours from 1 to 12.', 'hc h23': 'Hours from 0 to 23.', 'hc h24': 'Hours from 1 to 24.',
  'ca roc': 'The calendar of the Republic of China.', 'ca gregory': 'The Gregorian calendar.', 'co phonebk': 'The order of German phone books.',
  'nu latn': 'The digits 0 to 9.', 'ms uksystem': 'Miles, and pints.', 'ms ussystem': 'Miles, and Fahrenheit.',
};
