#!/usr/bin/env node
// Prints what node's Intl.NumberFormat knows of the numbers of locales, as rows with tabs between the fields.
//
//   node tools/locales/node.js systems    numbering system, its ten digits
//   node tools/locales/node.js symbols    locale, numbering system, `default` or nothing, decimal separator, grouping
//                                         separator, minus sign, plus sign, primary and secondary group size, minimum
//                                         grouping digits
//   node tools/locales/node.js vectors    locale, grouping strategy, number, text; and language, `cardinal` or
//                                         `ordinal`, number, plural category
//
// The locales are those of symbols.tsv, and the languages those of plural_rules.tsv that node knows, since it lists
// none of its own; the rows of `root` are those of symbols.tsv.
// Each locale has a row of symbols for `latn`, one for its default system, and one for each other system that has not
// the sizes of `latn` and these symbols: those of `root` if it has a row for the system, and else those of the locale
// for `latn`. The vectors are of these systems.
//
// The rows of the repository were made by node 20.20.2, which has ICU 78.2 and CLDR 48.
'use strict';
const fs = require('fs');
const path = require('path');

const STRATEGIES = [['auto', 'auto'], ['never', false], ['always', 'always'], ['min2', 'min2']];
// Numbers as they are given, with the digits that are shown where these are others. A plus sign is shown.
const NUMBERS = [
  '0', '-0', '+0', '0.0', '-0.00', '1', '-1', '+5', '12', '123', '999', '1000', '1234', '-1234', '+1234', '9999',
  '9999.5', '10000', '12345', '-12345.678', '99999', '100000', '123456', '999999.999', '1000000', '1234567',
  '1234567.891', '12345678', '123456789', '+9876543210', '0.001', ['.5', '0.5'], '-0.5', '1000.50', '-9999.99',
  '0012.50', '0001234', '0000', '123456789012345678901234567890.5',
  '-987654321098765432109876543210.01234567890123456789', ['1e30', '1000000000000000000000000000000'],
  ['1e-10', '0.0000000001'], ['1.20e1', '12.0'], ['-12.5e6', '-12500000'],
];

// Numbers whose plural categories are printed, with the fraction digits that are shown.
const COUNTS = [
  ...Array.from({length: 131}, (_, index) => `${index}`), '200', '201', '211', '300', '1000', '1001', '1100', '10000',
  '100000', '1000000', '1000001', '2000000', '1000000000', '0.0', '0.1', '0.5', '1.0', '1.00', '1.1', '1.2', '1.5',
  '1.9', '2.0', '2.10', '3.4', '10.0', '11.1', '21.1', '100.5', '1000000.0', '1000000.1',
];

function rowsOfFile(name) {
  const lines = fs.readFileSync(path.join(__dirname, name), 'utf8').trimEnd().split('\n');
  return lines.filter((line) => !line.startsWith('#')).map((line) => line.split('\t'));
}

function decimalSystems() {
  const systems = [];
  for (const name of Intl.supportedValuesOf('numberingSystem')) {
    const format = new Intl.NumberFormat(`en-u-nu-${name}`, {useGrouping: false});
    const digits = [...format.format(9876543210)].reverse();
    if (format.resolvedOptions().numberingSystem === name && digits.length === 10) systems.push([name, digits]);
  }
  return systems;
}

function formatted(tag, useGrouping, shown) {
  const sign = shown.startsWith('+');
  const [integer, fraction = ''] = shown.replace(/^[-+]/, '').split('.');
  return new Intl.NumberFormat(tag, {
    useGrouping,
    minimumIntegerDigits: Math.min(integer.length, 21),
    minimumFractionDigits: fraction.length,
    maximumFractionDigits: fraction.length,
    signDisplay: sign ? 'always' : 'auto',
  }).format(sign ? shown.slice(1) : shown);
}

// The texts of the parts of one type.
function part(tag, number, type, useGrouping) {
  const parts = new Intl.NumberFormat(tag, {useGrouping}).formatToParts(number);
  return parts.filter((it) => it.type === type).map((it) => it.value);
}

// CLDR 48 has words where the pattern of `az` in two numbering systems should be; node writes them before the digits.
function hasWords(tag, system) {
  return /^az(-AZ|-Latn|$)/.test(tag) && system.startsWith('arab');
}

// The tag in a numbering system.
function tagIn(tag, system) {
  return `${tag}${tag.includes('-u-') ? '' : '-u'}-nu-${system}`;
}

// What precedes the digit in the text of a number of one digit, without words. No locale has anything after it.
function signOf(tag, number) {
  const parts = new Intl.NumberFormat(tag, {signDisplay: 'always'}).formatToParts(number);
  const at = parts.findIndex((it) => it.type === 'integer');
  if (at !== parts.length - 1) throw new Error(`${tag} has a text after the digits`);
  return parts.slice(0, at).map((it) => it.value).join('').replace(/\p{L}.*/u, '');
}

// The fields of a row from the decimal separator on.
function fieldsOf(tag) {
  const groups = part(tag, 1e15, 'integer', 'auto').map((digits) => [...digits].length).reverse();
  const grouped = groups.length > 1;
  const secondary = groups[1] === groups[0] ? 0 : groups[1];
  let least = 1;
  while (grouped && part(tag, 10 ** (groups[0] + least - 1), 'group', 'auto').length === 0) least += 1;
  return [part(tag, 1.5, 'decimal', 'auto')[0], part(tag, 1e15, 'group', 'always')[0], signOf(tag, -1), signOf(tag, 1),
    grouped ? groups[0] : 0, grouped ? secondary : 0, least];
}

function rowsOf(tag, systems, root) {
  const byDefault = new Intl.NumberFormat(tag).resolvedOptions().numberingSystem;
  const latin = fieldsOf(tagIn(tag, 'latn'));
  const rows = [['latn', byDefault === 'latn', latin]];
  for (const [system] of systems) {
    if (system === 'latn') continue;
    const fields = fieldsOf(tagIn(tag, system));
    const expected = [...(root.get(system) ?? latin.slice(0, 4)), ...latin.slice(4)];
    const isDefault = system === byDefault;
    if (fields.join('\t') !== expected.join('\t') || isDefault) rows.push([system, isDefault, fields]);
  }
  return rows;
}

function print(fields) {
  process.stdout.write(`${fields.join('\t')}\n`);
}

function printCategories() {
  for (const [type, tag] of rowsOfFile('plural_rules.tsv')) {
    if (tag === 'root' || new Intl.PluralRules(tag).resolvedOptions().locale !== tag) continue;
    for (const number of COUNTS) {
      const minimumFractionDigits = number.split('.')[1]?.length ?? 0;
      print([tag, type, number, new Intl.PluralRules(tag, {type, minimumFractionDigits}).select(Number(number))]);
    }
  }
}

function main(mode) {
  const listed = rowsOfFile('symbols.tsv');
  const tags = [...new Set(listed.map((row) => row[0]))].filter((tag) => tag !== 'root');
  const roots = listed.filter((row) => row[0] === 'root');
  if (mode === 'systems') {
    for (const [name, digits] of decimalSystems()) print([name, digits.join('')]);
  } else if (mode === 'symbols') {
    const systems = decimalSystems();
    const root = new Map(roots.filter((row) => row[1] !== 'latn').map((row) => [row[1], row.slice(3, 7)]));
    roots.forEach(print);
    for (const tag of tags) {
      for (const [system, isDefault, fields] of rowsOf(tag, systems, root)) {
        print([tag, system, isDefault ? 'default' : '', ...fields]);
      }
    }
  } else if (mode === 'vectors') {
    for (const [tag, system, isDefault] of listed) {
      // `en-US-posix` is another tag of `en-US-u-va-posix`.
      if (tag === 'root' || tag === 'en-US-posix' || hasWords(tag, system)) continue;
      const named = isDefault ? tag : tagIn(tag, system);
      for (const [strategy, useGrouping] of STRATEGIES) {
        // ICU groups by threes here, where the locale has no groups. ICU4X does not.
        if (tag === 'en-US-u-va-posix' && strategy === 'always') continue;
        for (const number of NUMBERS) {
          const [given, shown] = [number, number].flat();
          print([named, strategy, given, formatted(named, useGrouping, shown)]);
        }
      }
    }
    printCategories();
  } else {
    process.stderr.write('usage: node.js symbols|systems|vectors\n');
    process.exitCode = 2;
  }
}

main(process.argv[2]);
