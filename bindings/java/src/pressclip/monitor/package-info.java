/**
 * Standing queries over articles, by the names and habits of Lucene's Monitor: queries are registered once, and each
 * document that is matched gives the queries that hold of it.
 *
 * <p>The words of queries and documents are those of Unicode's annex 29, folded. Lengths and counts are limited as
 * docs/PROTOCOL.md has it; what passes a limit is refused by a {@link pressclip.monitor.RefusedException}.
 */
package pressclip.monitor;
