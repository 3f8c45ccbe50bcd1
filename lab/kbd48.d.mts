// TypeScript looks here for the types of kbd48.mjs.
export * from './kbd48.js';
