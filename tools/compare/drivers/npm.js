#!/usr/bin/env node
// npm's own `semver`, the second peer: `parse T` and `cmp A B` by precedence,
// one line in and one line out, texts in hex. See README.md.
//
// Two habits of the module are no part of Semantic Versioning: it takes a
// leading v and trims white space. Such texts are turned down here first.
'use strict'
const path = require('path')

// The folder of the module: named, or the one that npm brings along.
const beside = path.join(path.dirname(process.execPath), '../lib/node_modules/npm/node_modules/semver')
const semver = require(process.env.NODE_SEMVER || beside)

// Refusing is common here, and a trace of each would cost most of the time.
Error.stackTraceLimit = 0

// The label of a text, or the answer that stands in for it.
function read (hex) {
  const text = Buffer.from(hex, 'hex').toString()
  if (text.length > 256) return 'toolong'
  if (/^[vV\s]|\s$/.test(text)) return 'none'
  return semver.parse(text) || 'none'
}

function parts (v) {
  const release = v.prerelease.map((p) => (/^[0-9]+$/.test(p) ? 'N:' : 'A:') + p).join()
  return `semver;${v.major};${v.minor};${v.patch};${release || '_'};${v.build.join('.') || '_'}`
}

function answer (line) {
  const fields = line.split(' ')
  const a = read(fields[1] || '')
  if (typeof a === 'string') return a
  if (fields[0] === 'parse') return parts(a)
  const b = read(fields[2] || '')
  return typeof b === 'string' ? b : ['Less', 'Equal', 'Greater'][semver.compare(a, b) + 1]
}

let rest = ''
process.stdin.setEncoding('latin1')
process.stdin.on('data', (block) => {
  const lines = (rest + block).split('\n')
  rest = lines.pop()
  let answers = ''
  for (const line of lines) answers += answer(line) + '\n'
  process.stdout.write(answers)
})
