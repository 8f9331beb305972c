import java.nio.file.Files;
import java.nio.file.Path;
import java.nio.file.Paths;
import java.util.ArrayList;
import java.util.List;
import org.apache.lucene.analysis.Analyzer;
import org.apache.lucene.analysis.TokenFilter;
import org.apache.lucene.analysis.TokenStream;
import org.apache.lucene.analysis.Tokenizer;
import org.apache.lucene.analysis.core.WhitespaceTokenizer;
import org.apache.lucene.analysis.tokenattributes.PayloadAttribute;
import org.apache.lucene.codecs.simpletext.SimpleTextCodec;
import org.apache.lucene.document.Document;
import org.apache.lucene.document.Field;
import org.apache.lucene.document.FieldType;
import org.apache.lucene.document.StoredField;
import org.apache.lucene.document.StringField;
import org.apache.lucene.document.TextField;
import org.apache.lucene.index.IndexOptions;
import org.apache.lucene.index.IndexWriter;
import org.apache.lucene.index.IndexWriterConfig;
import org.apache.lucene.index.NoMergePolicy;
import org.apache.lucene.index.Term;
import org.apache.lucene.store.FSDirectory;
import org.apache.lucene.util.BytesRef;

/**
 * Writes an archive whose shard files are Lucene's own: two segments by the SimpleText codec, one document of the first deleted. The
 * texts of crates/mount_tool/src/lucene.rt were written by this, with Lucene 8.7 (Debian's liblucene8-java):
 *
 * <pre>
 * CP=$(echo /usr/share/java/lucene-*-8.7.0.jar | tr ' ' ':')
 * javac -cp "$CP" WriteArchive.java && java -cp "$CP:." WriteArchive INDEX ARCHIVE
 * </pre>
 *
 * INDEX and ARCHIVE are folders that do not exist yet. The manifest is mount-lucene.
 */
public class WriteArchive {
    /** Gives each token but every second one a payload with a newline and a backslash in it. */
    static final class Payloads extends TokenFilter {
        private final PayloadAttribute payload = addAttribute(PayloadAttribute.class);
        private int count = 0;

        Payloads(TokenStream input) {
            super(input);
        }

        @Override
        public boolean incrementToken() throws java.io.IOException {
            if (!input.incrementToken()) {
                return false;
            }
            payload.setPayload(count % 2 == 0 ? new BytesRef("p\n\\" + count) : null);
            count++;
            return true;
        }

        @Override
        public void reset() throws java.io.IOException {
            super.reset();
            count = 0;
        }
    }

    static Document document(String id, String text) {
        FieldType offsets = new FieldType();
        offsets.setIndexOptions(IndexOptions.DOCS_AND_FREQS_AND_POSITIONS_AND_OFFSETS);
        offsets.setTokenized(true);
        offsets.setStored(true);
        FieldType frequencies = new FieldType();
        frequencies.setIndexOptions(IndexOptions.DOCS_AND_FREQS);
        frequencies.setTokenized(true);
        Document d = new Document();
        d.add(new Field("body", text, offsets));
        d.add(new Field("freqs", text, frequencies));
        d.add(new TextField("paid", text, Field.Store.NO));
        d.add(new StringField("id", id, Field.Store.YES));
        d.add(new StoredField("count", -2));
        return d;
    }

    public static void main(String[] args) throws Exception {
        Analyzer analyzer = new Analyzer(Analyzer.PER_FIELD_REUSE_STRATEGY) {
            @Override
            protected TokenStreamComponents createComponents(String field) {
                Tokenizer tokens = new WhitespaceTokenizer();
                return new TokenStreamComponents(tokens, field.equals("paid") ? new Payloads(tokens) : tokens);
            }
        };
        IndexWriterConfig config = new IndexWriterConfig(analyzer);
        config.setCodec(new SimpleTextCodec());
        config.setUseCompoundFile(false);
        config.setMergePolicy(NoMergePolicy.INSTANCE);
        Path index = Paths.get(args[0]);
        try (IndexWriter writer = new IndexWriter(FSDirectory.open(index), config)) {
            writer.addDocument(document("k\n0", "red fox"));
            writer.addDocument(document("k1", "fox END fox"));
            writer.addDocument(document("k2\\", "a\\b \u00e9t\u00e9 fox"));
            writer.commit();
            writer.addDocument(document("k3", "fox"));
            writer.commit();
            writer.deleteDocuments(new Term("id", "k1"));
        }
        Path archive = Files.createDirectory(Paths.get(args[1]));
        List<String> files = new ArrayList<>();
        String[] names = {"_0.pst", "_0.fld", "_0_1.liv", "_1.pst", "_1.fld"};
        for (int k = 0; k < names.length; k++) {
            Files.copy(index.resolve(names[k]), archive.resolve("__" + k));
            files.add("{\"name\":\"__" + k + "\",\"physical_name\":\"" + names[k] + "\",\"length\":" + Files.size(index.resolve(names[k])) + "}");
        }
        Files.writeString(archive.resolve("mount-lucene"), "{\"version\":1,\"files\":[" + String.join(",", files) + "],\"segments\":["
                + "{\"name\":\"_0\",\"docs\":3,\"postings\":\"_0.pst\",\"stored\":\"_0.fld\",\"live\":\"_0_1.liv\"},"
                + "{\"name\":\"_1\",\"docs\":1,\"postings\":\"_1.pst\",\"stored\":\"_1.fld\"}]}");
    }
}
