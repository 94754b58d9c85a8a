// Here TypeScript looks for the types of sheet.mjs. They stand in sheet.d.ts, where it looks for those of sheet.js.
export * from './sheet.js';
