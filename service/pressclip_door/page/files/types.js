/**
 * What the door's calls bring; this file has no code.
 *
 * @typedef {{title: string, status: number, refused: string, detail?: string, fault?: string, at?: number}} Problem
 *   a refusal, as a problem document
 *
 * @typedef {{id: string, query: string, listener?: string}} Listing
 *   a registered query
 *
 * @typedef {{count: number, queries: Listing[], next?: string}} ListingPage
 *   a page of registered queries; `next` is the id after which the next page begins
 *
 * @typedef {{id: string, fields: Record<string, string>}} Article
 *
 * @typedef {{at: number, level: "hint" | "notice" | "warning", rule: string, says: string}} Remark
 *   what a query may mean otherwise; `at` is a byte of its text
 *
 * @typedef {{included: boolean, text: string} | null} RangeEnd
 *
 * @typedef {{
 *   term?: {field: string, word: string},
 *   prefix?: {field: string, front: string},
 *   phrase?: {field: string, words: string[]},
 *   range?: {field: string, low: RangeEnd, high: RangeEnd},
 *   [kind: string]: {field?: string} | undefined,
 * }} Leaf
 *
 * @typedef {{occur: "must" | "should" | "must_not", tree: Tree}} Clause
 *
 * @typedef {"all" | Leaf | Clause[]} Tree
 *   how a query is read; a group is the list of its clauses
 *
 * @typedef {{
 *   says: string, remarks: Remark[], tree?: Tree, fields?: string[], never?: boolean, always?: boolean,
 *   tried_on_all?: boolean,
 * }} Meaning
 *   of a query of the press dialect the fields that it names, and no tree
 *
 * @typedef {{fault: string, at: number, says: string}} Fault
 *   why a text is no query, and at which byte
 *
 * @typedef {Meaning | Fault} Explained
 *
 * @typedef {{query: string, field: string, pieces: string[]}} Marked
 *   a text in pieces; each second one is a word at which the query holds
 *
 * @typedef {{holds: boolean, marked: Marked[]}} Trial
 *
 * @typedef {{article: string, queries: string[], title?: string, at?: number, excerpts?: Marked[]}} Alert
 */

export {};
