#!/usr/bin/env node
// Prints rows of crates/cli_vectors/rows for the plural categories of ranges:
// `node tools/locales/plural_range_rows.js`.
//
// The categories are those of node's Intl.PluralRules. For each language of plural_ranges.tsv there is a row for each
// two categories that the file lists, and a row for two that it does not list; then there are rows of tags of other
// forms, of languages that the file does not have, and of ordinal numbers. The script fails if node has another
// category than the file.
//
// The rows of the repository were made by node 20.20.2, which has ICU 78.2 and CLDR 48.
'use strict';
const fs = require('fs');
const path = require('path');

const NUMBERS = [
  ...Array.from({length: 40}, (_, index) => index),
  0.1, 0.5, 1.5, 2.5, 10.5, 100, 101, 102, 103, 105, 111, 1000, 1000000,
];
const OTHERS = ['af', 'en', 'es', 'eu', 'fi', 'he', 'id', 'ja', 'ko', 'lb', 'mk', 'mt', 'nb', 'ur', 'vi', 'zh'];
const TAGS = ['ru-RU', 'sr-Latn-ME', 'pt-PT', 'fr-CA', 'ar-EG-u-nu-latn', 'zh-Hant-TW', 'tl', 'sh', 'mo', 'iw'];

const lines = fs.readFileSync(path.join(__dirname, 'plural_ranges.tsv'), 'utf8').trimEnd().split('\n');
const listed = {};
for (const line of lines.filter((it) => !it.startsWith('#'))) {
  const [language, start, end, category] = line.split('\t');
  listed[language] = {...listed[language], [`${start} ${end}`]: category};
}

function rulesOf(tag, type) {
  const rules = new Intl.PluralRules(tag, {type, maximumFractionDigits: 3});
  const numbers = {};
  for (const number of NUMBERS) {
    const category = rules.select(number);
    numbers[category] = [...numbers[category] || [], number];
  }
  return {rules, numbers};
}

// The row of a range from a number of one category to one of another, of which the second is not the first.
function row(tag, type, {rules, numbers}, start, end) {
  const first = numbers[start][0];
  const last = numbers[end].find((number) => number !== first);
  if (last === undefined) return null;
  const category = rules.selectRange(first, last);
  const language = new Intl.Locale(tag).language;
  const wanted = (listed[language] || {})[`${start} ${end}`] || 'other';
  if (category !== wanted) throw new Error(`${tag} ${type} ${first}..${last}: ${category}, and not ${wanted}`);
  const word = type === 'ordinal' ? `${tag}:ordinal` : tag;
  return `plural\t${word}|${first}..${last}\t\t0\t${category}\\n`;
}

function pairs({numbers}) {
  return Object.keys(numbers).flatMap((start) => Object.keys(numbers).map((end) => [start, end]));
}

function print(tag, type, chosen) {
  const rules = rulesOf(tag, type);
  const found = pairs(rules).filter(chosen).map(([start, end]) => row(tag, type, rules, start, end));
  for (const text of found.filter((it) => it !== null)) console.log(text);
}

console.log('# Ranges, as node with CLDR 48 has their categories. Made by `node tools/locales/plural_range_rows.js`.');
for (const [language, categories] of Object.entries(listed)) {
  const isListed = ([start, end]) => `${start} ${end}` in categories;
  print(language, 'cardinal', isListed);
  const unlisted = pairs(rulesOf(language, 'cardinal')).filter((pair) => !isListed(pair));
  print(language, 'cardinal', ([start, end]) => `${start} ${end}` === (unlisted.at(-1) || []).join(' '));
}
for (const tag of [...OTHERS, ...TAGS]) {
  print(tag, 'cardinal', ([start, end]) => start === 'one' || end === 'few');
}
for (const language of ['cy', 'en', 'it', 'mo', 'sq', 'uk']) {
  print(language, 'ordinal', ([start, end]) => start === 'one' || ['few', 'many'].includes(end));
}
