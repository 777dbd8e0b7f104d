// The desk's core: files in, wages, charges, statements, differences and books out.
export { booksName, booksText } from './desk/books.mjs';
export { ceilingOf } from './desk/ceiling.mjs';
export { differencesText } from './desk/differences.mjs';
export { reopenedBooks } from './desk/reopening.mjs';
export { OPEN, runDesk } from './desk/run.mjs';
export { membersOf, statementText } from './desk/statement.mjs';
export { chargesText, wagesText } from './desk/wages.mjs';
export { prepared } from './desk/workbook.mjs';
