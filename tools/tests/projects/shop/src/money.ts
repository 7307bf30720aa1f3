export const format = (sum: number, currency: string) => `${sum} ${currency}`;
