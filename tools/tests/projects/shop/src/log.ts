export const log = (...words: unknown[]) => console.log(...words);
