"""Texts as names, towns and labels have them, in twelve scripts and languages that ISO 8859-1 hasn't, 25 of each: words
by themselves, two of them, and with the numbers of a label."""
WORDS = {
    "Greek": "Αθήνα Θεσσαλονίκη Πάτρα Ηράκλειο Λάρισα ελαιόλαδο μέλι φέτα κρασί Προσοχή εύθραυστο Παρτίδα Λήξη Μέγεθος",
    "Russian": "Москва Санкт-Петербург Новосибирск Екатеринбург Казань молоко хлеб чёрный Осторожно хрупкое Партия "
               "Срок Размер подъём",
    "Thai": "กรุงเทพ เชียงใหม่ ภูเก็ต ขอนแก่น ข้าวหอมมะลิ น้ำปลา กะทิ ชาเย็น ระวังแตก เก็บในที่เย็น "
            "รุ่นผลิต หมดอายุ ขนาด ผ้าไหม",
    "Hebrew": "ירושלים חיפה אילת אשדוד חלב דבש לחם שמן זהירות שביר אצווה תפוגה מידה כותנה",
    "Arabic": "القاهرة دمشق بغداد الرياض حليب عسل زيتون خبز انتباه قابل للكسر دفعة انتهاء مقاس",
    "Polish, Czech, Hungarian": "Łódź Wrocław Gdańsk Příbram Žďár Kőszeg Győr mąka śmietana šťáva ořechy tőkehal "
                                "cipőfűző Ostrożnie",
    "Turkish": "İstanbul Iğdır Diyarbakır Eskişehir Muğla Beşiktaş yağ kırmızı ışık kırılır yığın şişe çiğ ağırlık",
    "Vietnamese": "Nội Huế Đà Nẵng Cần Thơ sữa tươi nước mắm phở dễ vỡ hạn độ ẩm",
    "Japanese": "東京 大阪 札幌 横浜 緑茶 しょうゆ ラーメン 割れ物注意 天地無用 製造番号 賞味期限 サイズ 日本製 ｶﾀｶﾅ",
    "Chinese, simplified": "北京 上海 广州 深圳 绿茶 酱油 牛奶 小心轻放 请勿倒置 生产日期 保质期 规格 中国制造 棉布",
    "Chinese, traditional": "臺北 高雄 臺中 香港 綠茶 醬油 牛奶 小心輕放 請勿倒置 製造日期 保存期限 規格 臺灣製造 棉布",
    "Korean": "서울 부산 대구 인천 녹차 간장 우유 취급주의 깨지기 쉬움 제조번호 유통기한 크기 국산",
}
FORMS = ("{}", "{} {}", "{} 42", "{}: 12,5 kg", "{}, {} 2027-12-31")
EACH = 25


def texts():
    """Each script with its texts."""
    for script, words in WORDS.items():
        some = words.split()
        yield script, [FORMS[k % len(FORMS)].format(some[k % len(some)], some[(3 * k + 1) % len(some)])
                       for k in range(EACH)]
