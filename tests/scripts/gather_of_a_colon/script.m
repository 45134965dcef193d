a = gather(:);
