"""For the tests of promises and documents: the crates as text, and what their public contracts say and reach."""
