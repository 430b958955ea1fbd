/** The shipped strategies, as the files of examples have them. */

/** @type {Record<string, object>} */
export const SHIPPED = {
    "all-round": {
        cap: 65536,
        limit: 20,
        rounds: 4,
        bounds: "short",
        row: [
            { upto: 20, list: true },
            { upto: 200, split: [1, 1, 1, 1, 1] },
            { upto: 3400, split: [1, 1, 1, 1, 1, 1] },
            { upto: 12000, split: [1, 1, 1, 1, 1, 1, 1, 1, 1, 1, 1, 1, 1] },
            { upto: 65536, split: [1, 1, 1, 1, 1, 1, 1, 1, 1, 1, 1, 1, 1, 1, 1] },
        ],
    },
    "few-bytes": {
        cap: 65536,
        limit: 16,
        rounds: 6,
        bounds: "short",
        row: [
            { upto: 16, list: true },
            { upto: 2000, split: [1, 1, 1, 1] },
            { upto: 65536, split: [1, 1, 1, 1, 1] },
        ],
    },
    "few-rounds": {
        cap: 65536,
        limit: 64,
        rounds: 2,
        bounds: "short",
        row: [
            { upto: 64, list: true },
            { upto: 1500, split: [1, 1, 1, 1, 1, 1, 1, 1, 1, 1, 1, 1, 1, 1, 1, 1, 1, 1, 1, 1, 1, 1, 1, 1, 1, 1, 1] },
            {
                upto: 65536,
                split: [
                    1, 1, 1, 1, 1, 1, 1, 1, 1, 1, 1, 1, 1, 1, 1, 1, 1, 1, 1, 1, 1, 1, 1, 1, 1, 1, 1, 1, 1, 1, 1, 1, 1,
                    1, 1, 1, 1, 1, 1, 1, 1, 1, 1, 1, 1, 1, 1, 1, 1, 1, 1, 1, 1, 1, 1, 1, 1, 1, 1, 1, 1, 1, 1, 1,
                ],
            },
        ],
    },
    "newest-last": {
        cap: 65536,
        limit: 48,
        rounds: 5,
        bounds: "short",
        row: [
            { upto: 48, list: true },
            { upto: 200, split: [1, 1, 1, 1, 1] },
            { upto: 3400, split: [1, 1, 1, 1, 1, 1] },
            { upto: 12000, split: [1, 1, 1, 1, 1, 1, 1, 1, 1, 1, 1, 1, 1] },
            { upto: 65536, split: [1024, 1024, 1024, 1024, 1024, 64, 8, 1] },
        ],
    },
    "whole-list": {
        cap: 65536,
        limit: 65536,
        rounds: 0,
        row: [
            { upto: 65536, list: true },
        ],
    },
    "small": {
        cap: 256,
        limit: 16,
        rounds: 2,
        row: [
            { upto: 16, list: true },
            { upto: 256, split: [1, 1, 1, 1] },
        ],
    },
};
